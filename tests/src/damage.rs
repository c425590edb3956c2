//! Damaged memory of stored ads.

use crate::layout::{self, Stored, NODE_WORDS};
use crate::memory::{noise_bytes, noise_words};
use crate::sample::Sample;
use reference::bounds;
use reference::rng::Rng;
use reference::tree::Ad;

pub const KINDS: [&str; 11] = [
    "word changed",
    "words swapped",
    "words shifted",
    "byte changed",
    "bytes shifted",
    "gap between names",
    "name stored once",
    "unused room filled",
    "nodes exchanged",
    "noise",
    "several damages",
];

/// How much of an ad's memory is used.
#[derive(Clone, Copy)]
struct Used {
    nodes: usize,
    definitions: usize,
    bytes: usize,
}

impl Used {
    fn of(ad: &Ad) -> Used {
        let parts = ad.names_and_strings();
        Used {
            nodes: ad.node_count(),
            definitions: ad.definitions.len(),
            bytes: parts.iter().map(|part| part.len()).sum(),
        }
    }

    /// A word that an ad's nodes or definitions use, mostly; otherwise any.
    fn word(self, rng: &mut Rng) -> usize {
        match rng.below(10) {
            0..=5 if self.nodes > 0 => rng.below(4 * self.nodes),
            6..=8 if self.definitions > 0 => NODE_WORDS + rng.below(3 * self.definitions),
            _ => rng.below(layout::WORDS),
        }
    }

    fn byte(self, rng: &mut Rng) -> usize {
        if self.bytes > 0 && rng.chance(95) {
            rng.below(self.bytes)
        } else {
            rng.below(layout::BYTES)
        }
    }
}

/// This ad's memory with a damage of one kind, or of another where that one changes nothing.
/// Some damages leave a well-formed ad.
pub fn damaged(rng: &mut Rng, kind: usize, ad: Ad) -> Sample {
    let used = Used::of(&ad);
    let whole = Stored::of(&ad);
    let mut memory = whole.clone();
    for _ in 0..8 {
        damage(rng, kind, used, &mut memory);
        if memory != whole {
            return Sample::damaged(ad, &memory);
        }
    }
    change_word(rng, used, &mut memory);
    Sample::damaged(ad, &memory)
}

fn damage(rng: &mut Rng, kind: usize, used: Used, memory: &mut Stored) {
    match kind {
        0 => change_word(rng, used, memory),
        1 => swap_words(rng, used, memory),
        2 => shift_words(rng, used, memory),
        3 => change_byte(rng, used, memory),
        4 => shift_bytes(rng, used, memory),
        5 => open_gap(rng, used, memory),
        6 => store_once(rng, used, memory),
        7 => fill_unused(rng, used, memory),
        8 => exchange_nodes(rng, used, memory),
        9 => noise(rng, used, memory),
        _ => {
            for _ in 0..rng.between(2, 4) {
                let kind = rng.below(9);
                damage(rng, kind, used, memory);
            }
        }
    }
}

// Words.

fn change_word(rng: &mut Rng, used: Used, memory: &mut Stored) {
    let at = used.word(rng);
    let old = memory.words[at];
    memory.words[at] = match rng.below(11) {
        0 | 1 => old.wrapping_add(1),
        2 | 3 => old.wrapping_sub(1),
        4 => 0,
        5 => rng.below(30) as u64,
        6 => rng.below(1_100) as u64,
        7 => old ^ 1 << rng.below(64),
        8 => memory.words[used.word(rng)],
        9 => old.wrapping_add(1 << 32),
        _ => rng.bits() >> rng.below(64),
    };
}

/// Any two, or two side by side, such as an operator's operands.
fn swap_words(rng: &mut Rng, used: Used, memory: &mut Stored) {
    let one = used.word(rng);
    let two = if rng.chance(50) {
        (one + 1) % layout::WORDS
    } else {
        used.word(rng)
    };
    memory.words.swap(one, two);
}

/// A run of words moves by a word, a definition or a node.
fn shift_words(rng: &mut Rng, used: Used, memory: &mut Stored) {
    let (one, two) = (used.word(rng), used.word(rng));
    let by = *rng.pick(&[1, 3, 4]);
    let end = (one.max(two) + by + 1).min(layout::WORDS);
    let run = &mut memory.words[one.min(two)..end];
    let by = by.min(run.len());
    if rng.chance(50) {
        run.rotate_left(by);
    } else {
        run.rotate_right(by);
    }
}

fn exchange_nodes(rng: &mut Rng, used: Used, memory: &mut Stored) {
    let (size, start, count) = if rng.chance(70) {
        (4, 0, used.nodes)
    } else {
        (3, NODE_WORDS, used.definitions)
    };
    if count < 2 {
        return;
    }
    let one = rng.below(count);
    let two = if rng.chance(50) {
        (one + 1) % count
    } else {
        rng.below(count)
    };
    for word in 0..size {
        memory
            .words
            .swap(start + size * one + word, start + size * two + word);
    }
}

// Bytes.

fn change_byte(rng: &mut Rng, used: Used, memory: &mut Stored) {
    let at = used.byte(rng);
    let old = memory.bytes[at];
    memory.bytes[at] = match rng.below(6) {
        0 => old ^ 0x20,
        1 => old ^ 1 << rng.below(8),
        2 => *rng.pick(b"\"\\\n\t\r azAZ09_\0\x7E\x7F"),
        3 => memory.bytes[used.byte(rng)],
        4 => old.wrapping_add(1),
        _ => rng.byte(),
    };
}

fn shift_bytes(rng: &mut Rng, used: Used, memory: &mut Stored) {
    let (one, two) = (used.byte(rng), used.byte(rng));
    let end = (one.max(two) + 2).min(layout::BYTES);
    let run = &mut memory.bytes[one.min(two)..end];
    let by = rng.between(1, run.len());
    run.rotate_right(by);
}

/// Where the offsets of names and strings stand, the lengths being behind them.
fn offsets(used: Used, memory: &Stored) -> Vec<usize> {
    let nodes = (0..used.nodes).map(|number| 4 * number);
    let named = nodes.filter(|&at| (6..=8).contains(&memory.words[at]));
    let definitions = (0..used.definitions).map(|number| NODE_WORDS + 3 * number);
    named.map(|at| at + 1).chain(definitions).collect()
}

/// Moves what stands from `from` on by `by` bytes, and with it the offsets.
fn move_names(used: Used, memory: &mut Stored, from: usize, by: i64) {
    for at in offsets(used, memory) {
        if memory.words[at] >= from as u64 {
            memory.words[at] = memory.words[at].wrapping_add_signed(by);
        }
    }
    let length = by.unsigned_abs() as usize;
    if by > 0 {
        memory.bytes[from..].rotate_right(length);
    } else {
        memory.bytes[from - length..from].fill(0);
        memory.bytes[from - length..].rotate_left(length);
    }
}

/// All as it was, but for some bytes between two names that belong to none.
fn open_gap(rng: &mut Rng, used: Used, memory: &mut Stored) {
    let offsets = offsets(used, memory);
    if offsets.is_empty() {
        return;
    }
    let from = memory.words[*rng.pick(&offsets)] as usize;
    let by = rng.between(1, 9);
    if from.max(used.bytes).saturating_add(by) > layout::BYTES {
        return;
    }
    move_names(used, memory, from, by as i64);
    if rng.chance(30) {
        memory.bytes[from..from + by].fill(b'a');
    }
}

/// All as it was, but for a name that stands where the same name stood before.
fn store_once(rng: &mut Rng, used: Used, memory: &mut Stored) {
    let mut places = offsets(used, memory);
    while places.len() > 1 {
        let one = places.swap_remove(rng.below(places.len()));
        let [offset, length] = [memory.words[one], memory.words[one + 1]];
        let content = |at: usize| {
            let start = usize::try_from(memory.words[at]).ok()?;
            let end = start.checked_add(usize::try_from(memory.words[at + 1]).ok()?)?;
            memory.bytes.get(start..end)
        };
        let twin = |at: &usize| content(*at) == content(one) && memory.words[*at] < offset;
        let Some(two) = places.iter().copied().find(twin) else {
            continue;
        };
        if content(one).is_some() && length > 0 {
            let (from, by) = ((offset + length) as usize, -(length as i64));
            memory.words[one] = memory.words[two];
            return move_names(used, memory, from, by);
        }
    }
}

// Room that must be zero, and noise.

fn fill_unused(rng: &mut Rng, used: Used, memory: &mut Stored) {
    let last = (used.nodes as u64).saturating_sub(1);
    match rng.below(6) {
        // A node that belongs to no definition.
        0 if used.nodes < bounds::NODES => {
            let at = 4 * rng.between(used.nodes, bounds::NODES - 1);
            memory.words[at] = rng.between(1, 27) as u64;
        }
        // A definition without a node of its own.
        1 if used.definitions < bounds::DEFINITIONS => {
            let at = NODE_WORDS + 3 * used.definitions;
            let length = rng.between(0, 1) as u64;
            memory.words[at..at + 3].copy_from_slice(&[used.bytes as u64, length, last]);
            memory.bytes[used.bytes.min(layout::BYTES - 1)] = b'a';
        }
        2 if used.bytes < layout::BYTES => {
            let ends = [
                used.bytes,
                layout::BYTES - 1,
                rng.between(used.bytes, layout::BYTES - 1),
            ];
            memory.bytes[*rng.pick(&ends)] = rng.between(1, 255) as u8;
        }
        _ => {
            let ends = [
                4 * used.nodes,
                4 * used.nodes + 3,
                NODE_WORDS - 1,
                NODE_WORDS + 3 * used.definitions,
                layout::WORDS - 1,
                rng.below(layout::WORDS),
            ];
            memory.words[(*rng.pick(&ends)).min(layout::WORDS - 1)] = rng.between(1, 3) as u64;
        }
    }
}

/// Words of noise, large or small, in all or a part; or bytes of it.
fn noise(rng: &mut Rng, used: Used, memory: &mut Stored) {
    let words = noise_words(rng.bits(), layout::WORDS);
    let bytes = noise_bytes(rng.bits(), layout::BYTES);
    match rng.below(5) {
        0 => memory.words.copy_from_slice(&words),
        1 => memory.bytes.copy_from_slice(&bytes),
        2 => {
            memory.words.copy_from_slice(&words);
            memory.bytes.copy_from_slice(&bytes);
        }
        kind => {
            let below = if kind == 3 { 28 } else { 1_030 };
            let count = rng.between(1, 1 + 4 * used.nodes);
            for at in (0..count).chain(NODE_WORDS..NODE_WORDS + count.min(768)) {
                memory.words[at.min(layout::WORDS - 1)] = words[at % layout::WORDS] % below;
            }
        }
    }
}
