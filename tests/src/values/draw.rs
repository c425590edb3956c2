//! Operands of all kinds, with edges, and pairs that are close to each other.

use crate::slot::{self, Place, Words, BOOLEAN, ERROR, INTEGER, REAL, STRING, UNDEFINED};
use reference::rng::Rng;

/// Two ads' bytes, three operands (left, right, condition), and a real literal's digits and
/// places.
pub struct Case {
    pub memories: [Vec<u8>; 2],
    pub operands: [Words; 3],
    pub literal: (u64, u64),
}

impl Case {
    pub fn draw(rng: &mut Rng) -> Case {
        let mut memories = [bytes_before(rng), bytes_before(rng)];
        let left = operand(rng, &mut memories);
        let right = if rng.chance(35) {
            close_to(rng, left, &mut memories)
        } else {
            operand(rng, &mut memories)
        };
        let condition = if rng.chance(60) {
            [BOOLEAN, rng.below(2) as u64]
        } else {
            operand(rng, &mut memories)
        };
        let operands = [left, right, condition].map(|words| muddled(rng, words));
        let literal = literal(rng);
        Case {
            memories,
            operands,
            literal,
        }
    }

    /// Some of the operands, a line each.
    pub fn show(&self, operands: &[usize]) -> String {
        const NAMES: [&str; 3] = ["left", "right", "condition"];
        let line = |&number: &usize| {
            let words = self.operands[number];
            let shown = slot::show(words, &self.memories);
            format!("{:<10} {shown}\n", NAMES[number])
        };
        operands.iter().map(line).collect()
    }
}

fn operand(rng: &mut Rng, memories: &mut [Vec<u8>; 2]) -> Words {
    match rng.below(20) {
        0 => [UNDEFINED, 0],
        1 => [ERROR, 0],
        2 | 3 => [BOOLEAN, rng.below(2) as u64],
        4..=8 => integer_words(integer(rng)),
        9..=14 => [REAL, real(rng).to_bits()],
        _ => {
            let bytes = string(rng);
            place(rng, memories, &bytes)
        }
    }
}

fn integer_words(value: i32) -> Words {
    [INTEGER, u64::from(value as u32)]
}

/// Most words are as the library writes them; any others stand for a value too.
fn muddled(rng: &mut Rng, words: Words) -> Words {
    let [kind, load] = words;
    if !rng.chance(4) {
        return words;
    }
    match kind {
        UNDEFINED | ERROR => [kind, rng.bits()],
        BOOLEAN if load != 0 => [kind, rng.bits() | 1],
        INTEGER => [kind, load | rng.bits() << 32],
        STRING => [kind, muddled_place(rng, load)],
        _ => words,
    }
}

/// A String's place that reaches beyond its memory, or has a side above 1, or is any place.
fn muddled_place(rng: &mut Rng, load: u64) -> u64 {
    match rng.below(3) {
        0 => load | 0xFFFF,
        1 if load >> 32 != 0 => load | rng.bits() << 33,
        _ => rng.bits(),
    }
}

// Numbers.

const EDGE_INTEGERS: [i32; 11] = [
    i32::MIN,
    i32::MIN + 1,
    -65_536,
    -2,
    -1,
    0,
    1,
    2,
    65_536,
    i32::MAX - 1,
    i32::MAX,
];

fn integer(rng: &mut Rng) -> i32 {
    match rng.below(3) {
        0 => *rng.pick(&EDGE_INTEGERS),
        1 => rng.between(0, 40) as i32 - 20,
        _ => rng.bits() as i32,
    }
}

const EDGE_REALS: [f64; 24] = [
    0.0,
    -0.0,
    1.0,
    -1.0,
    0.1,
    0.5,
    -2.5,
    f64::NAN,
    f64::INFINITY,
    f64::NEG_INFINITY,
    f64::MAX,
    f64::MIN,
    f64::MIN_POSITIVE,
    -f64::MIN_POSITIVE,
    f64::EPSILON,
    2_147_483_647.0,
    2_147_483_648.0,
    -2_147_483_648.0,
    -2_147_483_649.0,
    9_007_199_254_740_991.0,
    9_007_199_254_740_992.0,
    1e22,
    1e300,
    1e-300,
];

fn real(rng: &mut Rng) -> f64 {
    let sign = rng.bits() << 63;
    let fraction = rng.bits() >> 12;
    match rng.below(8) {
        0 | 1 => *rng.pick(&EDGE_REALS),
        2 => f64::from_bits(sign | 0x7FF0_0000_0000_0001 | fraction),
        3 => f64::from_bits(sign | fraction >> rng.below(52)),
        4 => f64::from_bits(rng.bits()),
        5 => f64::from(integer(rng)),
        6 => f64::from_bits(sign | (1000 + rng.below(48) as u64) << 52 | fraction),
        _ => (rng.between(0, 4000) as f64 - 2000.0) / [1.0, 10.0, 100.0, 1000.0][rng.below(4)],
    }
}

/// Digits of every length at 0 to 14 places, of which 0 are no literal's; one in ten is beyond.
fn literal(rng: &mut Rng) -> (u64, u64) {
    if rng.chance(10) {
        return match rng.below(4) {
            0 => (rng.bits(), rng.bits()),
            1 => (rng.below(100) as u64, rng.between(15, 20) as u64),
            2 => (10_u64.pow(15) + rng.below(3) as u64, rng.below(15) as u64),
            _ => (rng.below(100) as u64, 1 << 32 | rng.below(15) as u64),
        };
    }
    let bound = 10_u64.pow(rng.between(1, 15) as u32);
    let digits = match rng.below(4) {
        0 => bound - 1,
        1 => bound / 10,
        _ => rng.bits() % bound,
    };
    (digits, rng.below(15) as u64)
}

// Strings.

/// Letters in both cases, and bytes that differ by 0x20 as the cases do and are no letters.
const ODD_BYTES: &[u8] = b"aAbBmMzZ@`[{]}^~_ 0Pp\n\t\"\\";

fn string_byte(rng: &mut Rng) -> u8 {
    match rng.below(8) {
        0 => rng.byte(),
        1 => rng.between(0x20, 0x7E) as u8,
        _ => *rng.pick(ODD_BYTES),
    }
}

fn string(rng: &mut Rng) -> Vec<u8> {
    let length = match rng.below(40) {
        0 => 1024,
        1 => rng.between(20, 300),
        2..=10 => 0,
        _ => rng.between(1, 6),
    };
    (0..length).map(|_| string_byte(rng)).collect()
}

/// What stands in a memory before the operands' bytes; at times it nearly fills it.
fn bytes_before(rng: &mut Rng) -> Vec<u8> {
    let length = if rng.chance(2) {
        rng.between(300, 14_000)
    } else {
        rng.below(8)
    };
    vec![b'x'; length]
}

/// Puts a String's bytes into either memory, with a few others behind it.
fn place(rng: &mut Rng, memories: &mut [Vec<u8>; 2], bytes: &[u8]) -> Words {
    let side = rng.below(2);
    let memory = &mut memories[side];
    let offset = memory.len() as u16;
    memory.extend_from_slice(bytes);
    let length = bytes.len() as u16;
    for _ in 0..rng.below(3) {
        memory.push(string_byte(rng));
    }
    let place = Place {
        side,
        offset,
        length,
    };
    [STRING, place.word()]
}

/// The bytes, changed a little.
fn close_string(rng: &mut Rng, bytes: &[u8]) -> Vec<u8> {
    let mut near = bytes.to_vec();
    let at = rng.below(near.len() + 1);
    match rng.below(6) {
        0 => {}
        1 => near.truncate(at),
        2 => near.push(string_byte(rng)),
        3 if at < near.len() => near[at] ^= 0x20,
        4 if at < near.len() => near[at] = string_byte(rng),
        _ => {
            for byte in &mut near {
                if byte.is_ascii_alphabetic() && rng.chance(50) {
                    *byte ^= 0x20;
                }
            }
        }
    }
    near
}

// Pairs.

/// An operand that is equal to this one, or next to it, or another kind's nearest.
fn close_to(rng: &mut Rng, words: Words, memories: &mut [Vec<u8>; 2]) -> Words {
    let [kind, load] = words;
    match kind {
        INTEGER => close_to_integer(rng, load as u32 as i32),
        REAL => close_to_real(rng, f64::from_bits(load)),
        STRING if rng.chance(95) => {
            let near = close_string(rng, Place::of(load).bytes(memories));
            place(rng, memories, &near)
        }
        _ => words,
    }
}

fn close_to_integer(rng: &mut Rng, value: i32) -> Words {
    match rng.below(6) {
        0 => integer_words(value),
        1 => integer_words(value.wrapping_neg()),
        2 => integer_words(value.wrapping_add(rng.below(3) as i32 - 1)),
        3 => integer_words(*rng.pick(&EDGE_INTEGERS)),
        4 => [REAL, f64::from(value).to_bits()],
        _ => [REAL, next_real(rng, f64::from(value)).to_bits()],
    }
}

fn close_to_real(rng: &mut Rng, value: f64) -> Words {
    match rng.below(5) {
        0 => [REAL, value.to_bits()],
        1 => [REAL, (-value).to_bits()],
        2 => [REAL, next_real(rng, value).to_bits()],
        3 => [REAL, (value * rng.between(1, 9) as f64).to_bits()],
        _ => integer_words(value as i32),
    }
}

fn next_real(rng: &mut Rng, value: f64) -> f64 {
    if rng.chance(50) {
        value.next_up()
    } else {
        value.next_down()
    }
}

// What is no operand and no operator.

/// A number that is the kind of no operator's node, at times just beside one.
pub fn no_operator(rng: &mut Rng) -> u64 {
    match rng.below(3) {
        0 => *rng.pick(&[0, 1, 8, 12, 28, 255, u64::MAX]),
        1 => 1 << 32 | rng.between(9, 27) as u64,
        _ => rng.bits() | 1 << 63,
    }
}

/// Words of a kind that is no value's.
pub fn blank(rng: &mut Rng) -> Words {
    let kind = *rng.pick(&[0, 0, 7, 8, 1 << 32 | 1, u64::MAX]);
    [kind, rng.bits()]
}
