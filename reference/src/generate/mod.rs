//! A seeded generator of inputs, and a count of what a run of them has hit.

pub mod ads;
pub mod coverage;
pub mod damage;
pub mod edges;
pub mod loops;
pub mod matches;
pub mod spelling;
pub mod tables;

use crate::bounds::{self, AdRoom, MatchRoom};
use crate::print::printed_text;
use crate::rng::Rng;
use crate::tree::Ad;

/// One input, with the family that it belongs to.
pub struct Input {
    pub family: &'static str,
    pub body: Body,
}

pub enum Body {
    /// A text to read, and if accepted to print.
    Text(Vec<u8>),
    /// A tree to check and print, perhaps not well formed.
    Tree(Ad),
    /// Two texts to match, with every budget of `budgets`.
    Pair(Vec<u8>, Vec<u8>),
    /// Sizes of lent memory, perhaps too small.
    Rooms([AdRoom; 2], MatchRoom),
}

/// An endless run of inputs, the same for the same seed.
pub struct Generator {
    rng: Rng,
    made: usize,
    edges: Vec<Input>,
}

impl Generator {
    pub fn new(seed: u64) -> Generator {
        Generator {
            rng: Rng::new(seed),
            made: 0,
            edges: Vec::new(),
        }
    }

    /// The next input at a bound; all of them come by turns.
    fn edge(&mut self) -> Input {
        if self.edges.is_empty() {
            self.edges = all_edges(&mut self.rng);
        }
        self.edges.swap_remove(self.rng.below(self.edges.len()))
    }
}

impl Iterator for Generator {
    type Item = Input;

    fn next(&mut self) -> Option<Input> {
        let turn = self.made % 12;
        self.made += 1;
        let rng = &mut self.rng;
        Some(match turn {
            0 => printed_ad(rng),
            1 => spelled_ad(rng),
            2 if rng.chance(50) => pair(rng, "pair made for matching", matches::match_pair),
            2 => pair(rng, "small pair", |rng| {
                (ads::small_ad(rng), ads::small_ad(rng))
            }),
            3 | 4 => pair(rng, "rich pair", ads::rich_pair),
            5 => pair(rng, "pair with shared names", ads::shared_pair),
            6 => pair(rng, "pair with rings", ads::ring_pair),
            7 if rng.chance(10) => pair(rng, "large pair", ads::large_pair),
            7 if rng.chance(5) => pair(rng, "full pair", ads::full_pair),
            7 | 8 => self.edge(),
            9 => damaged_ad(rng),
            10 => damaged_tokens(rng),
            _ if rng.chance(50) => text("random tokens", damage::random_tokens(rng)),
            _ => text("random bytes", damage::random_bytes(rng)),
        })
    }
}

fn text(family: &'static str, text: Vec<u8>) -> Input {
    let body = Body::Text(text);
    Input { family, body }
}

fn printed_ad(rng: &mut Rng) -> Input {
    text("small ad as printed", printed_text(&ads::small_ad(rng)))
}

fn spelled_ad(rng: &mut Rng) -> Input {
    let ad = ads::small_ad(rng);
    text("small ad in odd spelling", spelling::spelled(rng, &ad))
}

fn damaged_ad(rng: &mut Rng) -> Input {
    let ad = ads::small_ad(rng);
    let whole = spelling::spelled(rng, &ad);
    let (family, damaged) = damage::damaged(rng, &whole);
    text(family, damaged)
}

fn damaged_tokens(rng: &mut Rng) -> Input {
    let ad = ads::small_ad(rng);
    let tokens = spelling::spelled_tokens(rng, &ad);
    let (family, damaged) = damage::damaged_tokens(rng, &tokens);
    text(family, damaged)
}

/// Both ads in odd spelling where the text's bound allows, otherwise as printed.
fn pair(rng: &mut Rng, family: &'static str, make: fn(&mut Rng) -> (Ad, Ad)) -> Input {
    let (first, second) = make(rng);
    let first = fitting_text(rng, &first);
    let second = fitting_text(rng, &second);
    let body = Body::Pair(first, second);
    Input { family, body }
}

fn fitting_text(rng: &mut Rng, ad: &Ad) -> Vec<u8> {
    let odd = spelling::spelled(rng, ad);
    if odd.len() <= bounds::TEXT_BYTES {
        odd
    } else {
        printed_text(ad)
    }
}

fn all_edges(rng: &mut Rng) -> Vec<Input> {
    let mut inputs = Vec::new();
    for edge in edges::edge_texts(rng) {
        inputs.push(text("text at a bound", edge.text));
    }
    for edge in edges::edge_trees() {
        let family = "tree at a bound";
        let body = Body::Tree(edge.ad);
        inputs.push(Input { family, body });
    }
    for length in [bounds::TEXT_BYTES, bounds::TEXT_BYTES + 1] {
        let family = "tree at the bound of its printed text";
        let body = Body::Tree(edges::ad_of_printed_length(length));
        inputs.push(Input { family, body });
    }
    for (rooms, match_room) in edge_rooms() {
        let family = "memory at a bound";
        let body = Body::Rooms(rooms, match_room);
        inputs.push(Input { family, body });
    }
    inputs
}

/// Exactly enough of everything, one more of everything, and one too few of each.
pub fn edge_rooms() -> Vec<([AdRoom; 2], MatchRoom)> {
    let ad = AdRoom::REQUIRED;
    let matching = MatchRoom::REQUIRED;
    let mut rooms = vec![([ad, ad], matching)];
    let wide = AdRoom {
        nodes: ad.nodes + 1,
        definitions: ad.definitions + 1,
        bytes: ad.bytes + 1,
    };
    let wide_matching = MatchRoom {
        values: matching.values + 1,
        entries: matching.entries + 1,
    };
    rooms.push(([wide, wide], wide_matching));
    let nodes = ad.nodes - 1;
    let definitions = ad.definitions - 1;
    let bytes = ad.bytes - 1;
    for short in [
        AdRoom { nodes, ..ad },
        AdRoom { definitions, ..ad },
        AdRoom { bytes, ..ad },
    ] {
        rooms.push(([short, ad], matching));
        rooms.push(([ad, short], matching));
    }
    let values = matching.values - 1;
    let entries = matching.entries - 1;
    rooms.push(([ad, ad], MatchRoom { values, ..matching }));
    rooms.push((
        [ad, ad],
        MatchRoom {
            entries,
            ..matching
        },
    ));
    rooms
}

/// Budgets 0, 1, length - 1, length, length + 1 and 65,535 for a list of this length.
pub fn budgets(length: usize) -> Vec<u16> {
    let mut budgets = vec![0, 1, length.saturating_sub(1), length, length + 1, 65_535];
    budgets.dedup();
    budgets.into_iter().map(|budget| budget as u16).collect()
}

/// Output sizes around the length of a printed text.
pub fn outputs(length: usize) -> Vec<usize> {
    vec![
        0,
        length.saturating_sub(1),
        length,
        length + 1,
        bounds::TEXT_BYTES,
    ]
}
