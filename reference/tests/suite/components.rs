//! The linear search for loops, which is timed, against plain reachability.

use crate::{ad, graphs::some_pairs};
use reference::components;
use reference::graph::Pair;
use reference::matching;
use reference::tree::Ad;

/// Answers how many circular references there are.
fn assert_same_loops(first: &Ad, second: &Ad) -> usize {
    let plain = Pair::new(first, second).circular_references();
    let linear = Pair::searched(first, second, components::circular).circular_references();
    assert_eq!(linear, plain, "{first:?} with {second:?}");
    plain.len()
}

#[test]
fn the_same_loops() {
    let pairs = some_pairs(31, 4_000);
    let found = pairs.iter().map(|(one, two)| assert_same_loops(one, two));
    assert!(found.filter(|&loops| loops > 0).count() > 2_000);
}

#[test]
fn the_same_match() {
    for (first, second) in some_pairs(32, 400) {
        for budget in [0, 5, u16::MAX] {
            let linear = components::match_ads(&first, &second, budget).unwrap();
            let plain = matching::match_ads(&first, &second, budget).unwrap();
            assert_eq!(linear.verdict, plain.verdict);
            assert_eq!(linear.steps, plain.steps);
            assert_eq!(linear.order, plain.order);
            assert_eq!(linear.table, plain.table);
        }
    }
}

#[test]
fn loops_by_hand() {
    let count = |first: &str, second: &str| assert_same_loops(&ad(first), &ad(second));
    assert_eq!(count("[]", "[]"), 0);
    assert_eq!(count("[a = a]", "[]"), 1);
    assert_eq!(count("[a = b; b = c; c = 1]", "[c = other.a]"), 0);
    assert_eq!(count("[a = other.a]", "[a = other.a]"), 2);
    // The outer loop is open while the inner one closes, on the way there and on the way back.
    let inner = "[a = b + d; b = c; c = b; d = a]";
    assert_eq!(count(inner, "[]"), 4);
    // Entered in its middle, from a node that is in no loop.
    assert_eq!(count("[a = c; b = d; c = b; d = c]", "[]"), 3);
}

/// The deepest search: every node of both ads below the one before it.
#[test]
fn deepest() {
    let ring = |side: usize| {
        let place = |place: usize| {
            let next = (place + side) % 256;
            format!("d{place} = -+-other.d{next}")
        };
        let definitions: Vec<String> = (0..256).map(place).collect();
        ad(&format!("[{}]", definitions.join("; ")))
    };
    assert_eq!(assert_same_loops(&ring(0), &ring(1)), 512);
}
