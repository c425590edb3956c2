//! The stack that calls on the deepest ads take, as `bindings/c/classad.h` tells it. Where it
//! is not enough, this program is ended by a stack overflow.

use classad::{Ad, Dependencies, Match};
use std::thread;

const STACK_BYTES: usize = 512 * 1024;

fn nested(before: &str, after: &str, times: usize) -> String {
    let (before, after) = (before.repeat(times), after.repeat(times));
    format!("[Requirements={before}1{after}]")
}

/// All levels, as many operators as an ad can have, and both at once.
fn deep_texts() -> [String; 7] {
    [
        nested("(", ")", 64),
        nested("-", "", 64),
        nested("1?", ":1", 64),
        nested("1||1&&1==1<1+1*(", ")", 64),
        nested("1+", "", 511),
        nested("1+1+1+1+1+1+1+(", ")", 64),
        nested("(", ")*1*1*1*1*1*1*1", 64),
    ]
}

/// Every call that goes through the tree of an ad. The length of the match's list.
fn call_all(text: &str) -> usize {
    let ad: Ad = text.parse().unwrap();
    let (words, bytes) = ad.stored();
    assert_eq!(Ad::from_stored(words, bytes).unwrap(), ad);
    assert_eq!(ad.print().unwrap().parse::<Ad>().unwrap(), ad);
    let last = ad.node_count() - 1;
    assert!(ad.expression(last).unwrap().is_some());
    let found = Dependencies::new(&ad, &ad);
    let finished = Match::new(&ad, &ad);
    assert_eq!(finished.list(), found.list());
    assert_eq!(finished.steps(), 2 * ad.node_count());
    finished.steps()
}

#[test]
fn deep_ads_take_less_than_512_kb() {
    let calls = || deep_texts().map(|text| call_all(&text));
    let small = thread::Builder::new().stack_size(STACK_BYTES);
    let steps = small.spawn(calls).unwrap().join().unwrap();
    assert_eq!(steps, [2, 130, 386, 1538, 2046, 1794, 1794]);
}
