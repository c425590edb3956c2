//! Document 01's examples W1 to W12 and those to be run only.

use crate::{ad, given, given_in};
use reference::graph::{NodeId, Pair};
use reference::matching::{match_ads, Verdict};
use reference::print::print;

#[test]
fn w1_to_w10() {
    let examples = [
        ("undefined || true", "true"),
        ("\"x\" || true", "error"),
        ("undefined && \"x\"", "error"),
        ("undefined + \"x\"", "error"),
        ("undefined + 1", "undefined"),
        ("2147483647 + 1", "-2147483648"),
        ("-7 % 3", "-1"),
        ("1 / 0", "error"),
        ("3 is 3.0", "false"),
        ("\"One\" == \"one\"", "true"),
    ];
    for (text, gives) in examples {
        assert_eq!(given(text), gives, "{text}");
    }
}

#[test]
fn w11() {
    let text = "[a = b; b = a is undefined; d = b]";
    assert_eq!(given_in(text, "[]", 0, "a"), "undefined");
    assert_eq!(given_in(text, "[]", 0, "b"), "true");
    assert_eq!(given_in(text, "[]", 0, "d"), "true");
    // The same holds on the other side, and wherever one enters.
    assert_eq!(given_in("[]", text, 1, "d"), "true");
    assert_eq!(given_in("[x = other.a]", text, 0, "x"), "undefined");
    assert_eq!(given_in("[x = other.b]", text, 0, "x"), "true");
}

#[test]
fn w12() {
    let first = ad("[Requirements = other.w > 50]");
    let second = ad("[w = 60; Requirements = true]");
    let result = match_ads(&first, &second, 5).unwrap();
    let entries = [(1, 0), (0, 0), (0, 1), (0, 2), (1, 1)];
    let order: Vec<NodeId> = entries.map(|(side, node)| NodeId { side, node }).to_vec();
    assert_eq!(result.order, order);
    assert_eq!(result.steps, 5);
    let verdict = Verdict {
        matched: true,
        first_rank: 0,
        second_rank: 0,
    };
    assert_eq!(result.verdict, Some(verdict));
    let short = match_ads(&first, &second, 4).unwrap();
    assert_eq!((short.steps, short.verdict), (4, None));
    assert_eq!(short.order, order);
}

#[test]
fn shared_names_are_worked_out_once() {
    let first = ad("[a = 1; b = a + a; c = b + b; Requirements = c + c == 8; Rank = c]");
    let second = ad("[Requirements = true]");
    let result = match_ads(&first, &second, 65_535).unwrap();
    assert_eq!(result.steps, 14);
    let verdict = result.verdict.unwrap();
    assert_eq!(
        (verdict.matched, verdict.first_rank, verdict.second_rank),
        (true, 4, 0)
    );
}

#[test]
fn nothing_with_nothing() {
    let empty = ad("[]");
    let result = match_ads(&empty, &empty, 0).unwrap();
    assert_eq!(result.steps, 0);
    assert!(!result.verdict.unwrap().matched);
    assert!(Pair::new(&empty, &empty).evaluation_order().is_empty());
}

#[test]
fn printing_example() {
    let text = print(&ad("[ A=(1+2)+3 ;B=--A; ]")).unwrap();
    assert_eq!(text, b"[A = 1 + 2 + 3; B = --A]");
}

#[test]
fn mistakes_that_document_01_names() {
    assert_eq!(given("\"x\" && false"), "error");
    assert_eq!(given("false && \"x\""), "false");
    // A sum of 100 terms is printed without parentheses and reads back.
    let sum = ad(&format!("[a = 1{}]", " + 1".repeat(99)));
    let text = print(&sum).unwrap();
    assert!(!text.contains(&b'('));
    assert_eq!(reference::read::read(&text), Ok(sum));
    // The answer in a loop does not depend on where one entered.
    let one = "[a = b is undefined; b = a is undefined; Requirements = a && b]";
    let two = "[b = a is undefined; Requirements = b && a; a = b is undefined]";
    for text in [one, two] {
        assert_eq!(given_in(text, "[]", 0, "Requirements"), "true");
        assert_eq!(given_in(text, "[]", 0, "a"), "true");
        assert_eq!(given_in(text, "[]", 0, "b"), "true");
    }
}
