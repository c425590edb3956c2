//! Why something was refused, and where.

use crate::sys;
use std::error::Error;
use std::fmt;

/// A refusal. There are eleven, numbered from 1; those of a text have a place in it.
///
/// Shown by `to_string` as docs/COMMANDS.md has it:
///
/// ```
/// use classad::{Ad, MisplacedToken, Refusal};
///
/// let refusal = Ad::read(b"[a = 1;\n b = 2 3]").unwrap_err();
/// assert_eq!(
///     refusal.to_string(),
///     "refused 4 at 15 (line 2, column 8): token does not fit here"
/// );
/// let Refusal::MisplacedToken(place, cause) = refusal else {
///     panic!("{refusal:?}");
/// };
/// assert_eq!((place.byte, place.line, place.column), (15, 2, 8));
/// assert_eq!(cause, MisplacedToken::Misfit);
/// assert_eq!((refusal.number(), refusal.phrase()), (4, "token does not fit here"));
/// ```
#[derive(Clone, Copy, Debug, PartialEq, Eq, Hash)]
pub enum Refusal {
    /// 1: a lent slice is too short.
    MemoryTooSmall,
    /// 2: the text is over 16,384 bytes.
    TextTooLong,
    /// 3: there is no token at the place, or a string that is none.
    BadToken(Place, BadToken),
    /// 4: the token does not fit the grammar, or the text ends early.
    MisplacedToken(Place, MisplacedToken),
    /// 5: an Integer or a Real is too large.
    NumberTooLarge(Place, NumberTooLarge),
    /// 6: something is nested deeper than level 64.
    NestedTooDeep(Place),
    /// 7: a name or a string is too long.
    TooLong(Place, TooLong),
    /// 8: a name is defined twice, in the same case or in another.
    NameDefinedTwice(Place),
    /// 9: there are too many definitions or nodes.
    TooMany(Place, TooMany),
    /// 10: reading no text would leave these numbers.
    NotWellFormed,
    /// 11: the printed text is over 16,384 bytes.
    PrintTooLong,
}

/// Where a text is refused: the first byte of the token, or the end of a text that ended early.
#[derive(Clone, Copy, Debug, PartialEq, Eq, Hash)]
pub struct Place {
    /// The bytes in front of it.
    pub byte: usize,
    /// Its line, counted from 1. LF ends a line.
    pub line: usize,
    /// Its column, counted from 1, in bytes.
    pub column: usize,
}

/// The causes of refusal 3. Of those of a string, the one that comes first in it counts.
#[derive(Clone, Copy, Debug, PartialEq, Eq, Hash)]
pub enum BadToken {
    /// No token starts with these bytes.
    NoToken,
    /// A string has a byte outside 0x20 to 0x7E.
    BadByte,
    /// A string has a `\` before a byte other than `"`, `\`, `n` and `t`.
    BadEscape,
    /// The text ends within a string.
    NotClosed,
}

/// The causes of refusal 4.
#[derive(Clone, Copy, Debug, PartialEq, Eq, Hash)]
pub enum MisplacedToken {
    /// The grammar has no such token here.
    Misfit,
    /// The text ends where a token must follow.
    EndsEarly,
}

/// The causes of refusal 5.
#[derive(Clone, Copy, Debug, PartialEq, Eq, Hash)]
pub enum NumberTooLarge {
    /// An Integer is over 2,147,483,647.
    Integer,
    /// A Real has over 15 digits.
    Real,
}

/// The causes of refusal 7.
#[derive(Clone, Copy, Debug, PartialEq, Eq, Hash)]
pub enum TooLong {
    /// A name is over 64 bytes.
    Name,
    /// A string is over 1,024 bytes.
    String,
}

/// The causes of refusal 9.
#[derive(Clone, Copy, Debug, PartialEq, Eq, Hash)]
pub enum TooMany {
    /// There are over 256 definitions.
    Definitions,
    /// There are over 1,024 nodes.
    Nodes,
}

impl Refusal {
    /// The refusal of a text, from the number and the place that the library answered. It
    /// tells no cause: that is in the text.
    pub(crate) fn of_text(number: u64, place: u64, text: &[u8]) -> Refusal {
        let (before, from) = text.split_at(place as usize);
        let at = Place::new(text, place as usize);
        match number {
            3 => Refusal::BadToken(at, BadToken::of(from)),
            4 => Refusal::MisplacedToken(at, MisplacedToken::of(from)),
            5 => Refusal::NumberTooLarge(at, NumberTooLarge::of(from)),
            6 => Refusal::NestedTooDeep(at),
            7 => Refusal::TooLong(at, TooLong::of(from)),
            8 => Refusal::NameDefinedTwice(at),
            9 => Refusal::TooMany(at, TooMany::of(before)),
            _ => Refusal::without_place(number),
        }
    }

    /// The refusal of a number that has no place.
    pub(crate) fn without_place(number: u64) -> Refusal {
        match number {
            1 => Refusal::MemoryTooSmall,
            2 => Refusal::TextTooLong,
            10 => Refusal::NotWellFormed,
            11 => Refusal::PrintTooLong,
            _ => unreachable!("{number} is the number of no such refusal"),
        }
    }

    /// The number, 1 to 11.
    pub fn number(&self) -> u8 {
        match self {
            Refusal::MemoryTooSmall => 1,
            Refusal::TextTooLong => 2,
            Refusal::BadToken(..) => 3,
            Refusal::MisplacedToken(..) => 4,
            Refusal::NumberTooLarge(..) => 5,
            Refusal::NestedTooDeep(_) => 6,
            Refusal::TooLong(..) => 7,
            Refusal::NameDefinedTwice(_) => 8,
            Refusal::TooMany(..) => 9,
            Refusal::NotWellFormed => 10,
            Refusal::PrintTooLong => 11,
        }
    }

    /// Where the text is refused; none for 1, 2, 10 and 11.
    pub fn place(&self) -> Option<Place> {
        match *self {
            Refusal::BadToken(at, _)
            | Refusal::MisplacedToken(at, _)
            | Refusal::NumberTooLarge(at, _)
            | Refusal::NestedTooDeep(at)
            | Refusal::TooLong(at, _)
            | Refusal::NameDefinedTwice(at)
            | Refusal::TooMany(at, _) => Some(at),
            _ => None,
        }
    }

    /// The cause in words, as docs/COMMANDS.md fixes them.
    pub fn phrase(&self) -> &'static str {
        match self {
            Refusal::MemoryTooSmall => "memory too small",
            Refusal::TextTooLong => "text over 16,384 bytes",
            Refusal::BadToken(_, cause) => cause.phrase(),
            Refusal::MisplacedToken(_, MisplacedToken::Misfit) => "token does not fit here",
            Refusal::MisplacedToken(_, MisplacedToken::EndsEarly) => "text ends early",
            Refusal::NumberTooLarge(_, NumberTooLarge::Integer) => "Integer over 2,147,483,647",
            Refusal::NumberTooLarge(_, NumberTooLarge::Real) => "Real over 15 digits",
            Refusal::NestedTooDeep(_) => "nested deeper than level 64",
            Refusal::TooLong(_, TooLong::Name) => "name over 64 bytes",
            Refusal::TooLong(_, TooLong::String) => "string over 1,024 bytes",
            Refusal::NameDefinedTwice(_) => "name defined twice",
            Refusal::TooMany(_, TooMany::Definitions) => "over 256 definitions",
            Refusal::TooMany(_, TooMany::Nodes) => "over 1,024 nodes",
            Refusal::NotWellFormed => "stored ad is not well formed",
            Refusal::PrintTooLong => "printed text over 16,384 bytes",
        }
    }
}

impl Place {
    fn new(text: &[u8], byte: usize) -> Place {
        let mut answer = [0; 2];
        sys::position(text, byte, &mut answer);
        let [line, column] = answer.map(|number| number as usize);
        Place { byte, line, column }
    }
}

impl BadToken {
    /// From the place on. A string that is refused with 3 has one of the three faults.
    fn of(text: &[u8]) -> BadToken {
        let [b'"', rest @ ..] = text else {
            return BadToken::NoToken;
        };
        let mut bytes = rest.iter();
        while let Some(byte) = bytes.next() {
            match byte {
                b'\\' => match bytes.next() {
                    Some(b'"' | b'\\' | b'n' | b't') => {}
                    Some(_) => return BadToken::BadEscape,
                    None => return BadToken::NotClosed,
                },
                0x20..=0x7E => {}
                _ => return BadToken::BadByte,
            }
        }
        BadToken::NotClosed
    }

    fn phrase(self) -> &'static str {
        match self {
            BadToken::NoToken => "no token starts here",
            BadToken::BadByte => "bad byte in a string",
            BadToken::BadEscape => "bad escape in a string",
            BadToken::NotClosed => "string not closed",
        }
    }
}

impl MisplacedToken {
    fn of(text: &[u8]) -> MisplacedToken {
        if text.is_empty() {
            MisplacedToken::EndsEarly
        } else {
            MisplacedToken::Misfit
        }
    }
}

impl NumberTooLarge {
    /// A Real is digits, a point and a digit.
    fn of(text: &[u8]) -> NumberTooLarge {
        let digits = text.iter().take_while(|byte| byte.is_ascii_digit()).count();
        match text[digits..] {
            [b'.', next, ..] if next.is_ascii_digit() => NumberTooLarge::Real,
            _ => NumberTooLarge::Integer,
        }
    }
}

impl TooLong {
    fn of(text: &[u8]) -> TooLong {
        if text.starts_with(b"\"") {
            TooLong::String
        } else {
            TooLong::Name
        }
    }
}

impl TooMany {
    /// From what comes before the place: a `;` comes before a definition, and before no node.
    fn of(before: &[u8]) -> TooMany {
        let is_blank = |byte: &&u8| matches!(byte, b' ' | b'\t' | b'\r' | b'\n');
        match before.iter().rev().find(|byte| !is_blank(byte)) {
            Some(b';') => TooMany::Definitions,
            _ => TooMany::Nodes,
        }
    }
}

impl fmt::Display for Refusal {
    fn fmt(&self, formatter: &mut fmt::Formatter) -> fmt::Result {
        let (number, phrase) = (self.number(), self.phrase());
        match self.place() {
            None => write!(formatter, "refused {number} at 0: {phrase}"),
            Some(Place { byte, line, column }) => write!(
                formatter,
                "refused {number} at {byte} (line {line}, column {column}): {phrase}"
            ),
        }
    }
}

impl Error for Refusal {}
