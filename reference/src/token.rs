//! Tokens: where one starts, where it ends, what it says, and refusals 3, 7 and 5.

use crate::bounds;
use crate::bytes;
use crate::refusal::{Reason, Refusal};

/// 01: "Reserved, in any case: true, false, undefined, error, is, isnt, parent, other."
#[derive(Clone, Copy, Debug, PartialEq, Eq)]
pub enum Word {
    True,
    False,
    Undefined,
    Error,
    Is,
    Isnt,
    Parent,
    Other,
}

const WORDS: [(&[u8], Word); 8] = [
    (b"true", Word::True),
    (b"false", Word::False),
    (b"undefined", Word::Undefined),
    (b"error", Word::Error),
    (b"is", Word::Is),
    (b"isnt", Word::Isnt),
    (b"parent", Word::Parent),
    (b"other", Word::Other),
];

/// The reserved word that these letters spell, if they spell one.
pub fn reserved(letters: &[u8]) -> Option<Word> {
    WORDS
        .iter()
        .find(|(spelling, _)| bytes::same_name(spelling, letters))
        .map(|&(_, word)| word)
}

#[derive(Clone, Copy, Debug, PartialEq, Eq)]
pub enum Symbol {
    OpenBracket,
    CloseBracket,
    OpenParenthesis,
    CloseParenthesis,
    Semicolon,
    Assign,
    Question,
    Colon,
    Point,
    Or,
    And,
    Equal,
    NotEqual,
    Less,
    LessOrEqual,
    Greater,
    GreaterOrEqual,
    Plus,
    Minus,
    Times,
    Divide,
    Remainder,
    Not,
}

#[derive(Clone, Debug, PartialEq, Eq)]
pub enum Token {
    Symbol(Symbol),
    Word(Word),
    Name(Vec<u8>),
    Integer(u32),
    /// "its digits read as one whole number and the count after the point"
    Real {
        digits: u64,
        places: u32,
    },
    /// The bytes after escapes.
    String(Vec<u8>),
    /// The end of the text, at the text's length.
    End,
}

/// A token with its first byte's place and the place behind its last byte.
#[derive(Clone, Debug, PartialEq, Eq)]
pub struct Placed {
    pub token: Token,
    pub start: usize,
    pub end: usize,
}

impl Placed {
    fn new(token: Token, start: usize, end: usize) -> Placed {
        Placed { token, start, end }
    }
}

/// The first token at or behind `from`, or its refusal: "At one token the order is
/// 3, 7, 5, ..."; the grammar's refusals come only after these.
pub fn next_token(text: &[u8], from: usize) -> Result<Placed, Refusal> {
    let start = skip_blanks(text, from);
    match text.get(start) {
        None => Ok(Placed::new(Token::End, start, start)),
        Some(&byte) if bytes::starts_name(byte) => name_or_word(text, start),
        Some(&byte) if byte.is_ascii_digit() => number(text, start),
        Some(b'"') => string(text, start),
        Some(_) => symbol(text, start),
    }
}

fn skip_blanks(text: &[u8], from: usize) -> usize {
    run_end(text, from, bytes::is_blank)
}

/// The place behind the longest run of bytes of one class: "Longest token wins."
fn run_end(text: &[u8], from: usize, class: fn(u8) -> bool) -> usize {
    let length = text[from..].iter().take_while(|&&byte| class(byte)).count();
    from + length
}

/// 01: "name 64 bytes"; refusal 7: "name or string too long". No reserved word is
/// that long.
fn name_or_word(text: &[u8], start: usize) -> Result<Placed, Refusal> {
    let end = run_end(text, start, bytes::continues_name);
    let letters = &text[start..end];
    if letters.len() > bounds::NAME_BYTES {
        return Err(Refusal::at(Reason::TokenTooLong, start));
    }
    let token = match reserved(letters) {
        Some(word) => Token::Word(word),
        None => Token::Name(letters.to_vec()),
    };
    Ok(Placed::new(token, start, end))
}

/// 01: "Real: digits, a point, digits ... `1.` is Integer, then a point."
fn number(text: &[u8], start: usize) -> Result<Placed, Refusal> {
    let whole_end = run_end(text, start, |byte| byte.is_ascii_digit());
    let point = text.get(whole_end) == Some(&b'.');
    let digit_behind = text.get(whole_end + 1).is_some_and(u8::is_ascii_digit);
    if point && digit_behind {
        let end = run_end(text, whole_end + 1, |byte| byte.is_ascii_digit());
        real(text, start, whole_end, end)
    } else {
        integer(text, start, whole_end)
    }
}

/// 01: "Integer: digits, read in base ten whatever the first digit, 0 to
/// 2,147,483,647." Refusal 5: "Integer over the range".
fn integer(text: &[u8], start: usize, end: usize) -> Result<Placed, Refusal> {
    let mut value: u64 = 0;
    for digit in &text[start..end] {
        value = value * 10 + u64::from(digit - b'0');
        if value > bounds::INTEGER {
            return Err(Refusal::at(Reason::NumberTooLarge, start));
        }
    }
    Ok(Placed::new(Token::Integer(value as u32), start, end))
}

/// 01: "at most 15 digits in all", as written, idle zeros included. Refusal 5:
/// "Real over 15 digits".
fn real(text: &[u8], start: usize, point: usize, end: usize) -> Result<Placed, Refusal> {
    let before = &text[start..point];
    let after = &text[point + 1..end];
    if before.len() + after.len() > bounds::REAL_DIGITS {
        return Err(Refusal::at(Reason::NumberTooLarge, start));
    }
    let mut digits: u64 = 0;
    for digit in before.iter().chain(after) {
        digits = digits * 10 + u64::from(digit - b'0');
    }
    let places = after.len() as u32;
    Ok(Placed::new(Token::Real { digits, places }, start, end))
}

/// 01: "String: `"`, bytes 0x20 to 0x7E other than `"` and `\`, escapes `\"` `\\`
/// `\n` `\t`, `"`." A string is one token, so a bad byte anywhere in it is a 3 at
/// its opening quote, and 3 comes before 7.
fn string(text: &[u8], start: usize) -> Result<Placed, Refusal> {
    let bad = Err(Refusal::at(Reason::BadToken, start));
    let mut content = Vec::new();
    let mut position = start + 1;
    loop {
        match text.get(position) {
            None => return bad,
            Some(b'"') => break,
            Some(b'\\') => match text.get(position + 1).and_then(|&l| bytes::escaped(l)) {
                None => return bad,
                Some(byte) => {
                    content.push(byte);
                    position += 2;
                }
            },
            Some(&byte) if bytes::stands_for_itself(byte) => {
                content.push(byte);
                position += 1;
            }
            Some(_) => return bad,
        }
    }
    if content.len() > bounds::STRING_BYTES {
        return Err(Refusal::at(Reason::TokenTooLong, start));
    }
    Ok(Placed::new(Token::String(content), start, position + 1))
}

/// All symbols, longer spellings before their own beginnings: "Longest token wins.
/// `=?=` and `=!=` (document 004) are further spellings of `is` and `isnt`."
static SYMBOLS: &[(&[u8], Token)] = &[
    (b"=?=", Token::Word(Word::Is)),
    (b"=!=", Token::Word(Word::Isnt)),
    (b"||", Token::Symbol(Symbol::Or)),
    (b"&&", Token::Symbol(Symbol::And)),
    (b"==", Token::Symbol(Symbol::Equal)),
    (b"!=", Token::Symbol(Symbol::NotEqual)),
    (b"<=", Token::Symbol(Symbol::LessOrEqual)),
    (b">=", Token::Symbol(Symbol::GreaterOrEqual)),
    (b"<", Token::Symbol(Symbol::Less)),
    (b">", Token::Symbol(Symbol::Greater)),
    (b"=", Token::Symbol(Symbol::Assign)),
    (b"!", Token::Symbol(Symbol::Not)),
    (b"[", Token::Symbol(Symbol::OpenBracket)),
    (b"]", Token::Symbol(Symbol::CloseBracket)),
    (b"(", Token::Symbol(Symbol::OpenParenthesis)),
    (b")", Token::Symbol(Symbol::CloseParenthesis)),
    (b";", Token::Symbol(Symbol::Semicolon)),
    (b"?", Token::Symbol(Symbol::Question)),
    (b":", Token::Symbol(Symbol::Colon)),
    (b".", Token::Symbol(Symbol::Point)),
    (b"+", Token::Symbol(Symbol::Plus)),
    (b"-", Token::Symbol(Symbol::Minus)),
    (b"*", Token::Symbol(Symbol::Times)),
    (b"/", Token::Symbol(Symbol::Divide)),
    (b"%", Token::Symbol(Symbol::Remainder)),
];

/// Refusal 3: "no token starts here".
fn symbol(text: &[u8], start: usize) -> Result<Placed, Refusal> {
    SYMBOLS
        .iter()
        .find(|(spelling, _)| text[start..].starts_with(spelling))
        .map(|(spelling, token)| Placed::new(token.clone(), start, start + spelling.len()))
        .ok_or(Refusal::at(Reason::BadToken, start))
}
