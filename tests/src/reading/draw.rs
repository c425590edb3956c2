//! Texts from the reference's generator: ads of every size, texts at every bound, damaged
//! ones and random bytes.

use reference::bounds;
use reference::generate::{ads, damage, edges, spelling};
use reference::print::printed_text;
use reference::rng::Rng;
use reference::tree::Ad;

pub const FAMILIES: [&str; 11] = [
    "ad as printed",
    "ad in odd spelling",
    "rich ad",
    "large ad",
    "text at a bound",
    "damaged bytes",
    "damaged tokens",
    "damaged at a bound",
    "random tokens",
    "random bytes",
    "rules that meet",
];

pub struct Text {
    pub family: usize,
    pub text: Vec<u8>,
}

/// The texts at the bounds, made once for a run.
pub struct Texts {
    edges: Vec<Vec<u8>>,
}

impl Texts {
    pub fn new(seed: u64) -> Texts {
        let texts = edges::edge_texts(&mut Rng::new(seed));
        Texts {
            edges: texts.into_iter().map(|edge| edge.text).collect(),
        }
    }

    pub fn draw(&self, rng: &mut Rng) -> Text {
        let family = match rng.below(100) {
            0..=9 => 0,
            10..=29 => 1,
            30..=39 => 2,
            40 => 3,
            41..=44 => 4,
            45..=64 => 5,
            65..=84 => 6,
            85..=86 => 7,
            87..=91 => 8,
            92..=95 => 9,
            _ => 10,
        };
        let text = self.text(rng, family);
        Text { family, text }
    }

    fn text(&self, rng: &mut Rng, family: usize) -> Vec<u8> {
        match family {
            0 => printed_text(&ads::small_ad(rng)),
            1 => spelled(rng),
            2 => in_bounds(rng, |rng| ads::rich_pair(rng).0),
            3 if rng.chance(50) => in_bounds(rng, |rng| ads::large_pair(rng).0),
            3 => in_bounds(rng, |rng| ads::full_pair(rng).0),
            4 => self.edge(rng),
            5 => {
                let whole = spelled(rng);
                damage::damaged(rng, &whole).1
            }
            6 => {
                let ad = ads::small_ad(rng);
                let tokens = spelling::spelled_tokens(rng, &ad);
                damage::damaged_tokens(rng, &tokens).1
            }
            7 => {
                let whole = self.edge(rng);
                damage::damaged(rng, &whole).1
            }
            8 => damage::random_tokens(rng),
            9 => damage::random_bytes(rng),
            _ => rules_meet(rng),
        }
    }

    pub fn edge(&self, rng: &mut Rng) -> Vec<u8> {
        rng.pick(&self.edges).clone()
    }
}

fn spelled(rng: &mut Rng) -> Vec<u8> {
    let ad = ads::small_ad(rng);
    spelling::spelled(rng, &ad)
}

/// In odd spelling where the text's bound allows, otherwise as printed.
fn in_bounds(rng: &mut Rng, make: fn(&mut Rng) -> Ad) -> Vec<u8> {
    let ad = make(rng);
    text_of(rng, &ad)
}

pub fn text_of(rng: &mut Rng, ad: &Ad) -> Vec<u8> {
    let odd = spelling::spelled(rng, ad);
    if odd.len() <= bounds::TEXT_BYTES {
        odd
    } else {
        printed_text(ad)
    }
}

/// A text in which one token may break several rules, so that their order shows.
fn rules_meet(rng: &mut Rng) -> Vec<u8> {
    let mut text = beginning(rng);
    text.extend(token(rng));
    let ends: [&[u8]; 6] = [b"", b"]", b"=1]", b"?1:1]", b".a]", b" 1]"];
    text.extend(*rng.pick(&ends));
    text
}

/// What may stand before that token: places of every kind, at the bounds and beside them.
fn beginning(rng: &mut Rng) -> Vec<u8> {
    let places: [&[u8]; 7] = [b"", b"[", b"[a", b"[a=", b"[a=1 ", b"[a=1;", b"[a=other."];
    let deep = rng.between(63, 65);
    let nodes = rng.between(511, 512);
    match rng.below(11) {
        place if place < places.len() => places[place].to_vec(),
        7 => [b"[a=".to_vec(), b"(".repeat(deep)].concat(),
        8 => [b"[a=".to_vec(), b"1+".repeat(nodes)].concat(),
        9 => [b"[a=".to_vec(), b"(".repeat(deep), b"1+".repeat(nodes)].concat(),
        _ => {
            let count = rng.between(255, 256);
            let definitions = (0..count).map(|number| format!("n{number}=1;"));
            format!("[{}", definitions.collect::<String>()).into_bytes()
        }
    }
}

fn token(rng: &mut Rng) -> Vec<u8> {
    let tokens: [&[u8]; 14] = [
        b"2147483647",
        b"2147483648",
        b"1.00000000000000",
        b"1.000000000000000",
        b"(",
        b"-",
        b"!",
        b"?",
        b"1?",
        b"other",
        b"N0",
        b"a",
        b"~",
        b"parent",
    ];
    match rng.below(5) {
        0 => b"n".repeat(rng.between(63, 66)),
        1 | 2 => long_string(rng),
        _ => rng.pick(&tokens).to_vec(),
    }
}

/// A string about as long as the bound, at times bad near its end or not closed.
fn long_string(rng: &mut Rng) -> Vec<u8> {
    let mut string = b"\"".to_vec();
    for _ in 0..rng.between(1_022, 1_026) {
        let part: &[u8] = if rng.chance(10) { b"\\n" } else { b"x" };
        string.extend_from_slice(part);
    }
    let ends: [&[u8]; 6] = [b"\"", b"\"", b"\n\"", b"\\x\"", b"\\", b""];
    string.extend(*rng.pick(&ends));
    string
}
