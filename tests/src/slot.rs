//! A slot of the table as two words, kind and load, written and read here by
//! docs/LAYOUT.md, apart from the library's own code.

use crate::layout::Stored;
use reference::value::{StringValue, Value};

pub type Words = [u64; 2];

/// Kinds of slots, and their names.
pub const BLANK: u64 = 0;
pub const UNDEFINED: u64 = 1;
pub const ERROR: u64 = 2;
pub const BOOLEAN: u64 = 3;
pub const INTEGER: u64 = 4;
pub const REAL: u64 = 5;
pub const STRING: u64 = 6;
pub const KINDS: [&str; 7] = [
    "blank",
    "Undefined",
    "Error",
    "Boolean",
    "Integer",
    "Real",
    "String",
];

/// Where a String's bytes are.
#[derive(Clone, Copy, Debug, PartialEq, Eq)]
pub struct Place {
    pub side: usize,
    pub offset: u16,
    pub length: u16,
}

impl Place {
    pub fn word(self) -> u64 {
        (self.side as u64) << 32 | u64::from(self.offset) << 16 | u64::from(self.length)
    }

    pub fn of(load: u64) -> Place {
        Place {
            side: usize::from(load >> 32 != 0),
            offset: (load >> 16) as u16,
            length: load as u16,
        }
    }

    /// The bytes at the place, cut to what is there.
    pub fn bytes(self, memories: &[Vec<u8>; 2]) -> &[u8] {
        let memory = &memories[self.side];
        let start = usize::from(self.offset).min(memory.len());
        let end = (start + usize::from(self.length)).min(memory.len());
        &memory[start..end]
    }
}

/// What an operand's words stand for. A String's node is the operand's own number.
pub fn value(words: Words, memories: &[Vec<u8>; 2], node: usize) -> Option<Value<'_>> {
    let [kind, load] = words;
    Some(match kind {
        UNDEFINED => Value::Undefined,
        ERROR => Value::Error,
        BOOLEAN => Value::Boolean(load != 0),
        INTEGER => Value::Integer(load as u32 as i32),
        REAL => Value::real(f64::from_bits(load)),
        STRING => {
            let place = Place::of(load);
            Value::String(StringValue {
                side: place.side,
                node,
                bytes: place.bytes(memories),
            })
        }
        _ => return None,
    })
}

/// The words of the reference's answer. A String is the operand that it names.
pub fn words(value: Option<Value>, operands: &[Words]) -> Words {
    words_with(value, |string| {
        let [_, load] = operands[string.node];
        Place::of(load)
    })
}

/// The words of a value of a match. A String is the literal that it names, in its ad.
pub fn words_in(value: Option<Value>, ads: &[Stored; 2]) -> Words {
    words_with(value, |string| {
        let node = &ads[string.side].words[4 * string.node..4 * string.node + 4];
        Place {
            side: string.side,
            offset: node[1] as u16,
            length: node[2] as u16,
        }
    })
}

fn words_with(value: Option<Value>, place: impl Fn(StringValue) -> Place) -> Words {
    match value {
        None => [BLANK, 0],
        Some(Value::Undefined) => [UNDEFINED, 0],
        Some(Value::Error) => [ERROR, 0],
        Some(Value::Boolean(value)) => [BOOLEAN, u64::from(value)],
        Some(Value::Integer(value)) => [INTEGER, u64::from(value as u32)],
        Some(Value::Real(value)) => [REAL, value.to_bits()],
        Some(Value::String(value)) => [STRING, place(value).word()],
    }
}

/// The words for a reader.
pub fn show(words: Words, memories: &[Vec<u8>; 2]) -> String {
    let [kind, load] = words;
    let name = KINDS.get(kind as usize).unwrap_or(&"no kind");
    let meant = match kind {
        BOOLEAN => format!(" {}", load != 0),
        INTEGER => format!(" {}", load as u32 as i32),
        REAL => format!(" {:?}", f64::from_bits(load)),
        STRING => show_string(Place::of(load), memories),
        _ => String::new(),
    };
    format!("{name}{meant}  ({kind}, {load:#x})")
}

fn show_string(place: Place, memories: &[Vec<u8>; 2]) -> String {
    const SHOWN: usize = 40;
    let bytes = place.bytes(memories);
    let shown = bytes[..bytes.len().min(SHOWN)].escape_ascii();
    let more = if bytes.len() > SHOWN { ".." } else { "" };
    let side = ["first", "second"][place.side];
    format!(
        " \"{shown}{more}\" of the {side} ad at {}, {} bytes",
        place.offset, place.length
    )
}
