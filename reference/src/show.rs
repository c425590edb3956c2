//! Values in letters, by the tables of docs/COMMANDS.md.

use crate::print::put_string;
use crate::value::Value;

pub fn value(value: Value) -> String {
    match value {
        Value::Undefined => "undefined".to_string(),
        Value::Error => "error".to_string(),
        Value::Boolean(value) => value.to_string(),
        Value::Integer(value) => value.to_string(),
        Value::Real(value) => real(value),
        Value::String(value) => string(value.bytes),
    }
}

/// "in quotes, with the escapes `\"`, `\\`, `\n` and `\t`", as a literal is printed.
fn string(content: &[u8]) -> String {
    let mut text = Vec::new();
    put_string(content, &mut text);
    text.into_iter().map(char::from).collect()
}

pub fn real(value: f64) -> String {
    if value.is_nan() {
        return "not-a-number".to_string();
    }
    let sign = if value.is_sign_negative() { "-" } else { "" };
    let magnitude = if value.is_infinite() {
        "infinity".to_string()
    } else {
        finite(value.abs())
    };
    format!("{sign}{magnitude}")
}

/// "plain" where the first digit's exponent is -5 or more and below 16, otherwise with
/// the exponent behind.
fn finite(magnitude: f64) -> String {
    let (digits, exponent) = shortest(magnitude);
    match exponent {
        0..=15 => {
            let before = exponent as usize + 1;
            with_point(&format!("{digits:0<before$}"), before)
        }
        -5..=-1 => {
            let zeros = "0".repeat(exponent.unsigned_abs() as usize);
            with_point(&(zeros + &digits), 1)
        }
        _ => format!("{}e{exponent}", with_point(&digits, 1)),
    }
}

/// The fewest digits that read back, without a point, and the exponent of the first:
/// "Rust's `{:e}` gives these digits."
fn shortest(magnitude: f64) -> (String, i32) {
    let text = format!("{magnitude:e}");
    let (digits, exponent) = text.split_once('e').expect("an exponent");
    let exponent = exponent.parse().expect("a number");
    (digits.replace('.', ""), exponent)
}

/// "with at least one digit on each side of the point".
fn with_point(digits: &str, before: usize) -> String {
    let (whole, fraction) = digits.split_at(before);
    let fraction = if fraction.is_empty() { "0" } else { fraction };
    format!("{whole}.{fraction}")
}
