//! The calls that are timed: the library's on stored numbers, the reference's on trees.

use crate::clock::Timed;
use classad::bounds::{BYTES, WORDS};
use classad::sys as library;
use reference::bounds;
use reference::check::check;
use reference::components;
use reference::matching::{match_ads, Match};
use reference::print::print;
use reference::read::read;
use reference::refusal::Refusal;
use reference::tree::Ad;
use std::hint::black_box;

/// Memory for an ad (docs/LAYOUT.md).
pub struct Memory {
    words: Vec<u64>,
    bytes: Vec<u8>,
}

impl Memory {
    pub fn zero() -> Memory {
        Memory {
            words: vec![0; WORDS],
            bytes: vec![0; BYTES],
        }
    }

    fn read(&mut self, text: &[u8]) -> [u64; 3] {
        let mut answer = [0; 3];
        library::read(
            black_box(text),
            &mut self.words,
            &mut self.bytes,
            &mut answer,
        );
        answer
    }
}

/// An ad as both programs hold it.
pub struct Both {
    pub stored: Memory,
    pub tree: Ad,
}

impl Both {
    /// None where both refuse the text.
    pub fn read(text: &[u8]) -> Option<Both> {
        let mut stored = Memory::zero();
        let [refusal, definitions, nodes] = stored.read(text);
        let tree = read(text).ok();
        let counts = tree
            .as_ref()
            .map(|ad| [ad.definitions.len() as u64, ad.node_count() as u64]);
        let told = (refusal == 0).then_some([definitions, nodes]);
        assert_eq!(told, counts, "the two programs read differently");
        tree.map(|tree| Both { stored, tree })
    }
}

// Reading.

pub fn library_read(text: &[u8]) -> Timed<'_> {
    let mut memory = Memory::zero();
    Timed::new(move || {
        black_box(memory.read(text));
    })
}

pub fn reference_read(text: &[u8]) -> Timed<'_> {
    Timed::new(move || drop(black_box(read(black_box(text)))))
}

// Checking.

fn checked(ad: &Memory) -> [u64; 4] {
    let mut answer = [0; 4];
    library::check(black_box(&ad.words), &ad.bytes, &mut answer);
    answer
}

/// The length of the print.
pub fn print_length(ad: &Memory) -> u64 {
    checked(ad)[3]
}

pub fn library_check<'a>(ads: &'a [&'a Memory]) -> Timed<'a> {
    Timed::new(move || {
        for ad in ads {
            black_box(checked(ad));
        }
    })
}

pub fn reference_check<'a>(ads: &'a [&'a Ad]) -> Timed<'a> {
    Timed::new(move || {
        for ad in ads {
            let _ = black_box(check(black_box(ad)));
        }
    })
}

// Printing.

pub fn library_print(ad: &Memory) -> Timed<'_> {
    let mut output = vec![0; bounds::TEXT_BYTES];
    Timed::new(move || {
        let mut answer = [0; 2];
        library::print(black_box(&ad.words), &ad.bytes, &mut output, &mut answer);
        black_box((answer, &output));
    })
}

pub fn reference_print(ad: &Ad) -> Timed<'_> {
    Timed::new(move || drop(black_box(print(black_box(ad)))))
}

// Matching.

/// Table and list of a match, which the caller lends again and again as they are.
pub struct Rooms {
    table: Vec<u64>,
    list: Vec<u64>,
}

impl Rooms {
    pub fn zero() -> Rooms {
        Rooms {
            table: vec![0; 2 * bounds::SLOTS],
            list: vec![0; bounds::SLOTS],
        }
    }

    /// Refusal, finished, matched, both ranks, steps, transitions.
    pub fn matched(&mut self, [first, second]: &[Both; 2], budget: u16) -> [u64; 7] {
        let mut answer = [0; 7];
        library::matching(
            [&first.stored.words, &second.stored.words].map(|words| black_box(&words[..])),
            [&first.stored.bytes, &second.stored.bytes].map(|bytes| &bytes[..]),
            &mut self.table,
            &mut self.list,
            budget,
            &mut answer,
        );
        answer
    }
}

pub fn library_match(pairs: &[[Both; 2]], budget: u16) -> Timed<'_> {
    let mut rooms = Rooms::zero();
    Timed::new(move || {
        for pair in pairs {
            black_box(rooms.matched(pair, budget));
        }
    })
}

pub fn reference_match(pairs: &[[Both; 2]], budget: u16) -> Timed<'_> {
    match_by(match_ads, pairs, budget)
}

/// The reference with its linear search for circular references.
pub fn linear_match(pairs: &[[Both; 2]], budget: u16) -> Timed<'_> {
    match_by(components::match_ads, pairs, budget)
}

type MatchAds = for<'a> fn(&'a Ad, &'a Ad, u16) -> Result<Match<'a>, Refusal>;

fn match_by(match_ads: MatchAds, pairs: &[[Both; 2]], budget: u16) -> Timed<'_> {
    Timed::new(move || {
        for [first, second] in pairs {
            let (first, second) = (black_box(&first.tree), &second.tree);
            drop(black_box(match_ads(first, second, budget)));
        }
    })
}
