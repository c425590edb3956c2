//! How many transitions the traversal of two ads makes, in closed form. Document 01 leaves
//! the number to the library; this is worked out from the reference's graph alone.

use reference::bounds::SLOTS;
use reference::graph::{NodeId, Pair, ROOTS};

/// The exact number, which the bound of sixteen for each node of both ads must not cut: where
/// it does, a library that makes more transitions than that shows as different.
pub fn expected(pair: &Pair) -> u64 {
    let nodes = pair.nodes();
    let list = pair.evaluation_order();
    let count = for_loops(pair, &nodes) + for_list(pair, &list);
    count.min(16 * nodes.len()) as u64
}

/// Each node has its name looked up, is taken as the start of a search or passed over, is
/// entered by a link, is found to have no link left, and is closed; but a node at which a
/// search starts is entered by none. Each link is passed once.
fn for_loops(pair: &Pair, nodes: &[NodeId]) -> usize {
    let links: usize = nodes.iter().map(|&id| pair.links(id).len()).sum();
    5 * nodes.len() - searches(pair, nodes) + links
}

/// Each entry is entered and left, and each of its needs passed; a root that is listed before
/// its turn is passed over.
fn for_list(pair: &Pair, list: &[NodeId]) -> usize {
    let needs: usize = list.iter().map(|&id| pair.needs(id).len()).sum();
    2 * list.len() + needs + listed_before(pair, list)
}

/// How many searches enter a node: each starts at the first node that none before has seen,
/// and goes along all links.
fn searches(pair: &Pair, nodes: &[NodeId]) -> usize {
    let mut seen = vec![false; SLOTS];
    let mut count = 0;
    for &start in nodes {
        if seen[start.slot()] {
            continue;
        }
        count += 1;
        let mut found = vec![start];
        while let Some(id) = found.pop() {
            if !seen[id.slot()] {
                seen[id.slot()] = true;
                found.extend(pair.links(id));
            }
        }
    }
    count
}

/// How many roots are listed before their turn. Any other is the last entry that its turn
/// adds, so that it tells how long the list is when the next one's turn comes.
fn listed_before(pair: &Pair, list: &[NodeId]) -> usize {
    let (mut length, mut before) = (0, 0);
    for (side, name) in ROOTS {
        let Some(root) = pair.definition_root(side, name) else {
            continue;
        };
        let at = list.iter().position(|&id| id == root);
        match at.expect("a root is listed") {
            at if at < length => before += 1,
            at => length = at + 1,
        }
    }
    before
}
