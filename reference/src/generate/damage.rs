//! Damaged texts: flips, cuts, insertions, swapped tokens; and pure random bytes.

use super::spelling::joined;
use crate::rng::Rng;

const STRAY_TOKENS: [&[u8]; 40] = [
    b"[",
    b"]",
    b"(",
    b")",
    b";",
    b"=",
    b"?",
    b":",
    b".",
    b"||",
    b"&&",
    b"==",
    b"!=",
    b"<",
    b"<=",
    b">",
    b">=",
    b"+",
    b"-",
    b"*",
    b"/",
    b"%",
    b"!",
    b"=?=",
    b"=!=",
    b"is",
    b"isnt",
    b"true",
    b"error",
    b"other",
    b"parent",
    b"a",
    b"1",
    b"1.5",
    b"\"x\"",
    b"\"x",
    b"&",
    b"{",
    b"99999999999",
    b"1.",
];

/// One to three damages of one text, with a name for the last.
pub fn damaged(rng: &mut Rng, text: &[u8]) -> (&'static str, Vec<u8>) {
    let mut text = text.to_vec();
    let mut kind = "";
    for _ in 0..rng.between(1, 3) {
        kind = damage_once(rng, &mut text);
    }
    (kind, text)
}

fn damage_once(rng: &mut Rng, text: &mut Vec<u8>) -> &'static str {
    let place = rng.below(text.len() + 1);
    match rng.below(6) {
        0 if place < text.len() => {
            text[place] ^= 1 << rng.below(8);
            "flipped bit"
        }
        1 if place < text.len() => {
            text[place] = rng.byte();
            "changed byte"
        }
        2 => {
            text.truncate(place);
            "cut end"
        }
        3 => {
            let end = (place + rng.between(1, 6)).min(text.len());
            text.drain(place..end);
            "cut inside"
        }
        4 => {
            text.insert(place, rng.byte());
            "inserted byte"
        }
        _ => {
            let token = rng.pick(&STRAY_TOKENS).to_vec();
            text.splice(place..place, token);
            "inserted token"
        }
    }
}

/// A text whose tokens are swapped, doubled, dropped or replaced.
pub fn damaged_tokens(rng: &mut Rng, tokens: &[Vec<u8>]) -> (&'static str, Vec<u8>) {
    let mut tokens = tokens.to_vec();
    let one = rng.below(tokens.len());
    let two = rng.below(tokens.len());
    let kind = match rng.below(4) {
        0 => {
            tokens.swap(one, two);
            "swapped tokens"
        }
        1 => {
            let token = tokens[one].clone();
            tokens.insert(two, token);
            "doubled token"
        }
        2 => {
            tokens.remove(one);
            "dropped token"
        }
        _ => {
            tokens[one] = rng.pick(&STRAY_TOKENS).to_vec();
            "replaced token"
        }
    };
    (kind, joined(rng, &tokens))
}

/// Tokens in no order at all, behind a `[a=` that lets some of them fit.
pub fn random_tokens(rng: &mut Rng) -> Vec<u8> {
    let mut tokens: Vec<Vec<u8>> = vec![b"[".to_vec(), b"a".to_vec(), b"=".to_vec()];
    for _ in 0..rng.below(20) {
        tokens.push(rng.pick(&STRAY_TOKENS).to_vec());
    }
    joined(rng, &tokens)
}

pub fn random_bytes(rng: &mut Rng) -> Vec<u8> {
    let length = rng.below(60);
    (0..length).map(|_| rng.byte()).collect()
}
