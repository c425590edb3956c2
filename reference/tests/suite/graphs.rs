//! Circular references and the list, against other ways to find them.

use crate::{ad, given_in};
use reference::generate::ads::{large_pair, rich_pair, ring_pair, shared_pair};
use reference::generate::loops::loop_pair;
use reference::graph::{NodeId, Pair};
use reference::rng::Rng;
use reference::tree::{Ad, Expression, Scope};

pub fn some_pairs(seed: u64, count: usize) -> Vec<(Ad, Ad)> {
    let mut rng = Rng::new(seed);
    let mut pairs = Vec::new();
    for number in 0..count {
        pairs.push(match number % 20 {
            0 => shared_pair(&mut rng),
            1 | 2 => ring_pair(&mut rng),
            3 => large_pair(&mut rng),
            4..=7 => loop_pair(&mut rng),
            _ => rich_pair(&mut rng),
        });
    }
    pairs
}

/// Links worked out anew from the trees.
fn links(ads: [&Ad; 2], pair: &Pair, id: NodeId) -> Vec<NodeId> {
    let node = pair.node(id);
    let Expression::Reference(scope, name) = node.expression else {
        let below = |&node| NodeId { node, ..id };
        return node.operands.iter().map(below).collect();
    };
    let side = if *scope == Scope::Own {
        id.side
    } else {
        1 - id.side
    };
    let mut root = 0;
    for definition in &ads[side].definitions {
        let mut size = 0;
        definition.expression.walk(&mut |_| size += 1);
        root += size;
        if definition.name.eq_ignore_ascii_case(name) {
            return vec![NodeId {
                side,
                node: root - 1,
            }];
        }
    }
    vec![]
}

/// Circular by taking away: a node that leads to nothing any more, or that nothing
/// leads to any more, is in no loop. What is left may also stand between two loops, so
/// each is looked at by going from it as far as one can, depth first.
fn circular_by_elimination(ads: [&Ad; 2], pair: &Pair) -> Vec<NodeId> {
    let all = pair.nodes();
    let mut outgoing: Vec<Vec<usize>> = vec![Vec::new(); 2_048];
    for &id in &all {
        outgoing[id.slot()] = links(ads, pair, id)
            .iter()
            .map(|link| link.slot())
            .collect();
    }
    let mut left: Vec<bool> = vec![false; 2_048];
    all.iter().for_each(|id| left[id.slot()] = true);
    loop {
        let mut entered = vec![false; 2_048];
        for id in all.iter().filter(|id| left[id.slot()]) {
            outgoing[id.slot()]
                .iter()
                .for_each(|&link| entered[link] = true);
        }
        let stays = |slot: usize| entered[slot] && outgoing[slot].iter().any(|&link| left[link]);
        let fallen: Vec<usize> = (0..2_048)
            .filter(|&slot| left[slot] && !stays(slot))
            .collect();
        if fallen.is_empty() {
            break;
        }
        fallen.iter().for_each(|&slot| left[slot] = false);
    }
    let returns = |start: usize| {
        let mut seen = vec![false; 2_048];
        let mut stack = vec![start];
        while let Some(slot) = stack.pop() {
            for &link in outgoing[slot].iter().filter(|&&link| left[link]) {
                if link == start {
                    return true;
                }
                if !seen[link] {
                    seen[link] = true;
                    stack.push(link);
                }
            }
        }
        false
    };
    all.into_iter()
        .filter(|&id| pair.is_reference(id) && left[id.slot()] && returns(id.slot()))
        .collect()
}

#[test]
fn circular_references() {
    let mut found = 0;
    for (first, second) in some_pairs(21, 400) {
        let pair = Pair::new(&first, &second);
        let expected = circular_by_elimination([&first, &second], &pair);
        assert_eq!(
            pair.circular_references(),
            expected,
            "{first:?} with {second:?}"
        );
        found += expected.len();
    }
    assert!(found > 1_000);
}

/// The list with a stack in place of the recursion: each node is put on it once to be
/// opened and once, below its needs, to be written down.
fn list_by_stack(pair: &Pair) -> Vec<NodeId> {
    let mut order: Vec<NodeId> = Vec::new();
    let mut listed = std::collections::HashSet::new();
    let roots = [
        (0, "requirements"),
        (1, "requirements"),
        (0, "rank"),
        (1, "rank"),
    ];
    for (side, name) in roots {
        let Some(root) = pair.definition_root(side, name.as_bytes()) else {
            continue;
        };
        let mut stack = vec![(root, false)];
        while let Some((id, opened)) = stack.pop() {
            if listed.contains(&id) {
                continue;
            }
            if opened {
                listed.insert(id);
                order.push(id);
                continue;
            }
            stack.push((id, true));
            let needs = if pair.is_circular(id) {
                &[]
            } else {
                pair.links(id)
            };
            stack.extend(needs.iter().rev().map(|&need| (need, false)));
        }
    }
    order
}

#[test]
fn the_list() {
    for (first, second) in some_pairs(22, 400) {
        let pair = Pair::new(&first, &second);
        let order = pair.evaluation_order();
        assert_eq!(order, list_by_stack(&pair));
        // Needs come first, nothing comes twice.
        let mut listed = std::collections::HashSet::new();
        for &id in &order {
            assert!(pair.needs(id).iter().all(|need| listed.contains(need)));
            assert!(listed.insert(id));
        }
        // Each root that exists is in the list, names apart from case.
        for (side, ad) in [&first, &second].into_iter().enumerate() {
            for (definition, &root) in ad.definitions.iter().zip(&ad.numbered().roots) {
                let name = definition.name.to_ascii_lowercase();
                if name == b"requirements" || name == b"rank" {
                    assert!(listed.contains(&NodeId { side, node: root }));
                }
            }
        }
    }
}

fn order_of(first: &str, second: &str) -> Vec<(usize, usize)> {
    let (first, second) = (ad(first), ad(second));
    let order = Pair::new(&first, &second).evaluation_order();
    order.iter().map(|id| (id.side, id.node)).collect()
}

#[test]
fn the_list_by_hand() {
    // Roots in their order, operands left to right.
    let first = "[Rank = 1; requirements = 2]";
    let second = "[RANK = 3; Requirements = 4]";
    assert_eq!(order_of(first, second), [(0, 1), (1, 1), (0, 0), (1, 0)]);
    // A definition that is not needed is not entered; arms not taken are.
    let first = "[idle = 9; a = 1; Requirements = true ? a : 5]";
    assert_eq!(
        order_of(first, "[]"),
        [(0, 2), (0, 1), (0, 3), (0, 4), (0, 5)]
    );
    // A circular reference needs nothing.
    assert_eq!(
        order_of("[Rank = rank + 1]", "[]"),
        [(0, 0), (0, 1), (0, 2)]
    );
    assert_eq!(order_of("[a = b; b = a; Rank = a]", "[]"), [(0, 0), (0, 2)]);
    // A name stands for its definition in the ad that holds it.
    let second = "[x = y; y = 7]";
    assert_eq!(
        order_of("[y = 1; Rank = other.x]", second),
        [(1, 1), (1, 0), (0, 1)]
    );
    // Neither ad has anything to enter.
    assert_eq!(order_of("[a = 1]", "[b = other.a]"), []);
    // The same ad twice is two sides.
    let same = "[Rank = other.rank]";
    assert_eq!(order_of(same, same), [(0, 0), (1, 0)]);
}

#[test]
fn loops_by_hand() {
    let circular = |first: &str, second: &str| {
        let (first, second) = (ad(first), ad(second));
        let pair = Pair::new(&first, &second);
        let found = pair.circular_references();
        found
            .iter()
            .map(|id| (id.side, id.node))
            .collect::<Vec<(usize, usize)>>()
    };
    assert_eq!(circular("[a = a]", "[]"), [(0, 0)]);
    assert_eq!(circular("[a = 1 + A]", "[]"), [(0, 1)]);
    assert_eq!(circular("[a = other.a]", "[]"), []);
    assert_eq!(circular("[a = other.a]", "[a = 1]"), []);
    assert_eq!(circular("[a = other.a]", "[a = a]"), [(1, 0)]);
    assert_eq!(circular("[a = other.a]", "[a = other.a]"), [(0, 0), (1, 0)]);
    assert_eq!(circular("[a = other.b; b = 1]", "[b = other.b]"), []);
    assert_eq!(circular("[a = true ? 1 : a]", "[]"), [(0, 2)]);
    assert_eq!(circular("[a = false && a]", "[]"), [(0, 1)]);
    assert_eq!(
        circular("[a = b; b = a is undefined; d = b]", "[]"),
        [(0, 0), (0, 1)]
    );
    // One reference inside the loop and one beside it, in one definition.
    assert_eq!(
        circular("[a = b + c; b = a; c = 1]", "[]"),
        [(0, 0), (0, 3)]
    );
    // Between two loops, but in none.
    assert_eq!(
        circular("[a = a + b; b = c; c = c]", "[]"),
        [(0, 0), (0, 4)]
    );
}

#[test]
fn values_in_loops() {
    // Undefined, "whatever its definition gives".
    assert_eq!(given_in("[a = true || a]", "[]", 0, "a"), "true");
    assert_eq!(given_in("[a = true ? 1 : a]", "[]", 0, "a"), "1");
    assert_eq!(given_in("[a = a is undefined]", "[]", 0, "a"), "true");
    let text = "[a = true ? 1 : a; b = a]";
    assert_eq!(given_in(text, "[]", 0, "b"), "1");
    // Seen from outside a loop, a definition of the loop has its value.
    let text = "[a = b; b = a is undefined ? 5 : 6; c = b + b]";
    assert_eq!(given_in(text, "[]", 0, "c"), "10");
    assert_eq!(given_in(text, "[]", 0, "a"), "undefined");
}

#[test]
fn names_belong_to_the_ad_that_holds_them() {
    let second = "[x = y + 1; y = 10; z = other.y]";
    assert_eq!(given_in("[y = 1; r = other.x]", second, 0, "r"), "11");
    assert_eq!(given_in("[y = 1; r = other.z]", second, 0, "r"), "1");
    assert_eq!(given_in("[Y = 1; r = OTHER.Z]", second, 0, "R"), "1");
    assert_eq!(given_in("[r = other.gone]", second, 0, "r"), "undefined");
    assert_eq!(given_in("[r = x]", second, 0, "r"), "undefined");
}
