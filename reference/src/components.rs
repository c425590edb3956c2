//! Circular references by the components of the links, in linear time (Tarjan). Nothing is
//! compared with it but times: a match goes by the plain reachability of `graph`.

use crate::bounds;
use crate::check::check;
use crate::graph::{NodeId, Pair};
use crate::matching::{match_pair, Match};
use crate::refusal::Refusal;
use crate::tree::Ad;

/// The answer of `matching::match_ads`, its circular references found by this search.
pub fn match_ads<'a>(first: &'a Ad, second: &'a Ad, budget: u16) -> Result<Match<'a>, Refusal> {
    check(first)?;
    check(second)?;
    Ok(match_pair(&Pair::searched(first, second, circular), budget))
}

/// By slot: whether the node is a circular reference. A reference leads back to itself
/// exactly if what it links to is of its own component.
pub fn circular(pair: &Pair) -> Vec<bool> {
    let mut search = Search::new(pair);
    let all = pair.nodes();
    for &id in &all {
        if search.met[id.slot()] == 0 {
            search.enter(id);
        }
    }
    let component = |id: NodeId| search.component[id.slot()];
    let mut circular = vec![false; bounds::SLOTS];
    for id in all.into_iter().filter(|&id| pair.is_reference(id)) {
        let mut links = pair.links(id).iter();
        circular[id.slot()] = links.any(|&link| component(link) == component(id));
    }
    circular
}

struct Search<'p, 'a> {
    pair: &'p Pair<'a>,
    /// By slot: when the node was met, counted from 1; 0 before that.
    met: Vec<usize>,
    /// How many nodes have been met.
    count: usize,
    /// By slot: the `met` of the first node of its component; 0 while that is not known.
    component: Vec<usize>,
    /// The nodes that have been met and have no component yet, oldest first.
    open: Vec<NodeId>,
}

impl<'p, 'a> Search<'p, 'a> {
    fn new(pair: &'p Pair<'a>) -> Search<'p, 'a> {
        Search {
            pair,
            met: vec![0; bounds::SLOTS],
            count: 0,
            component: vec![0; bounds::SLOTS],
            open: Vec::new(),
        }
    }

    /// Enters a node that was not met before, and what it leads to, at most 2,048 deep.
    /// The answer is the `met` of the oldest open node found from it.
    fn enter(&mut self, id: NodeId) -> usize {
        let pair = self.pair;
        self.count += 1;
        let own = self.count;
        self.met[id.slot()] = own;
        self.open.push(id);
        let mut oldest = own;
        for &link in pair.links(id) {
            if self.met[link.slot()] == 0 {
                oldest = oldest.min(self.enter(link));
            } else if self.component[link.slot()] == 0 {
                oldest = oldest.min(self.met[link.slot()]);
            }
        }
        if oldest == own {
            self.close(own);
        }
        oldest
    }

    /// Makes one component of this open node and all that were met after it.
    fn close(&mut self, first: usize) {
        while let Some(&id) = self.open.last() {
            if self.met[id.slot()] < first {
                break;
            }
            self.component[id.slot()] = first;
            self.open.pop();
        }
    }
}
