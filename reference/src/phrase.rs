//! The phrase of a refusal. docs/COMMANDS.md tells the causes of one number apart by the
//! text around the place; so it is done here, and the reader keeps no cause.

use crate::bytes;
use crate::refusal::{Reason, Refusal};

/// The text is that of the refusal; for a place that is 0 by rule any text will do.
pub fn phrase(text: &[u8], refusal: &Refusal) -> &'static str {
    let place = refusal.place;
    match refusal.reason {
        Reason::RoomTooSmall => "memory too small",
        Reason::TextTooLong => "text over 16,384 bytes",
        Reason::BadToken => bad_token(text, place),
        Reason::DoesNotFit if place < text.len() => "token does not fit here",
        Reason::DoesNotFit => "text ends early",
        Reason::NumberTooLarge if is_real(&text[place..]) => "Real over 15 digits",
        Reason::NumberTooLarge => "Integer over 2,147,483,647",
        Reason::TooDeep => "nested deeper than level 64",
        Reason::TokenTooLong if text[place] == b'"' => "string over 1,024 bytes",
        Reason::TokenTooLong => "name over 64 bytes",
        Reason::DefinedTwice => "name defined twice",
        Reason::TooMany if follows_semicolon(&text[..place]) => "over 256 definitions",
        Reason::TooMany => "over 1,024 nodes",
        Reason::NotWellFormed => "stored ad is not well formed",
        Reason::PrintTooLong => "printed text over 16,384 bytes",
    }
}

fn bad_token(text: &[u8], place: usize) -> &'static str {
    if text[place] == b'"' {
        bad_string(&text[place + 1..])
    } else {
        "no token starts here"
    }
}

/// What comes first behind the opening quote. A `\` at the text's end stands before no
/// byte, so the end is what comes.
fn bad_string(mut rest: &[u8]) -> &'static str {
    loop {
        rest = match rest {
            [] | [b'\\'] => return "string not closed",
            [b'\\', b'"' | b'\\' | b'n' | b't', behind @ ..] => behind,
            [b'\\', ..] => return "bad escape in a string",
            [0x20..=0x7E, behind @ ..] => behind,
            [_, ..] => return "bad byte in a string",
        }
    }
}

/// Whether a point and a digit follow the digits in front.
fn is_real(rest: &[u8]) -> bool {
    let digits = rest.iter().take_while(|byte| byte.is_ascii_digit()).count();
    matches!(rest[digits..], [b'.', b'0'..=b'9', ..])
}

/// Only a definition's name can follow a `;`, so what is too many there is definitions.
fn follows_semicolon(before: &[u8]) -> bool {
    let last = before.iter().rfind(|&&byte| !bytes::is_blank(byte));
    last == Some(&b';')
}
