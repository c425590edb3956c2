//! Values, and how they are shown.

use std::fmt::{self, Write};

/// What a node is worth in a match.
///
/// Shown by `to_string` as docs/COMMANDS.md has it:
///
/// ```
/// use classad::Value;
///
/// assert_eq!(Value::Undefined.to_string(), "undefined");
/// assert_eq!(Value::Integer(-3).to_string(), "-3");
/// assert_eq!(Value::Real(6.5).to_string(), "6.5");
/// assert_eq!(Value::Real(1e16).to_string(), "1.0e16");
/// assert_eq!(Value::Real(f64::NAN).to_string(), "not-a-number");
/// assert_eq!(Value::String(b"say \"hi\"\n").to_string(), r#""say \"hi\"\n""#);
/// ```
///
/// `==` compares Reals as numbers: not-a-number is not equal to itself, and 0.0 is -0.0.
#[derive(Clone, Copy, Debug, PartialEq)]
pub enum Value<'a> {
    /// `undefined`, a name that is not defined, or what follows from it. It is never true.
    Undefined,
    /// `error`, or an operand of a kind that an operator does not admit.
    Error,
    /// `true` or `false`.
    Boolean(bool),
    /// A whole number of 32 bits.
    Integer(i32),
    /// A 64-bit float.
    Real(f64),
    /// The bytes of a string literal of either ad, a part of that ad's memory.
    String(&'a [u8]),
}

impl fmt::Display for Value<'_> {
    fn fmt(&self, formatter: &mut fmt::Formatter) -> fmt::Result {
        match *self {
            Value::Undefined => formatter.write_str("undefined"),
            Value::Error => formatter.write_str("error"),
            Value::Boolean(value) => write!(formatter, "{value}"),
            Value::Integer(value) => write!(formatter, "{value}"),
            Value::Real(value) => formatter.write_str(&shown_real(value)),
            Value::String(bytes) => write_string(formatter, bytes),
        }
    }
}

/// In quotes, with the escapes of a printed string. Its other bytes are 0x20 to 0x7E in every
/// ad; any others are shown as `?`.
fn write_string(formatter: &mut fmt::Formatter, bytes: &[u8]) -> fmt::Result {
    formatter.write_char('"')?;
    for &byte in bytes {
        match byte {
            b'"' => formatter.write_str("\\\"")?,
            b'\\' => formatter.write_str("\\\\")?,
            b'\n' => formatter.write_str("\\n")?,
            b'\t' => formatter.write_str("\\t")?,
            0x20..=0x7E => formatter.write_char(char::from(byte))?,
            _ => formatter.write_char('?')?,
        }
    }
    formatter.write_char('"')
}

/// The shortest digits that read back as the same float, plain where the first of them has an
/// exponent from -5 to 15.
fn shown_real(value: f64) -> String {
    if value.is_nan() {
        return "not-a-number".to_string();
    }
    let sign = if value.is_sign_negative() { "-" } else { "" };
    if value.is_infinite() {
        return format!("{sign}infinity");
    }
    let (digits, exponent) = shortest(value.abs());
    let shown = match exponent {
        0..=15 => point_within(&digits, exponent as usize + 1),
        -5..=-1 => format!("0.{}{digits}", "0".repeat((-1 - exponent) as usize)),
        _ => format!("{}e{exponent}", point_within(&digits, 1)),
    };
    format!("{sign}{shown}")
}

/// The shortest digits of a finite float and the exponent of the first, of those digits the
/// closest to it: what the standard library's `{:e}` gives.
fn shortest(value: f64) -> (String, i32) {
    let said = format!("{value:e}");
    let (digits, exponent) = said.split_once('e').expect("{:e} has an exponent");
    let exponent = exponent.parse().expect("an exponent is a number");
    (digits.replace('.', ""), exponent)
}

/// The digits with a point behind the first `before`, filled with zeros up to it, and one zero
/// behind it where no digit is left.
fn point_within(digits: &str, before: usize) -> String {
    let filled = format!("{digits:0<before$}");
    let (whole, rest) = filled.split_at(before);
    let rest = if rest.is_empty() { "0" } else { rest };
    format!("{whole}.{rest}")
}
