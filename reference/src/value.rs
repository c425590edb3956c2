//! Values and what the operators make of them. 01, "Values": "Undefined, Error,
//! Boolean, Integer, Real, String. A value is one of six kinds, and a Real carries a
//! 64-bit float."

use crate::tree::{BinaryOperator, UnaryOperator};
use std::cmp::Ordering;

#[derive(Clone, Copy, Debug)]
pub enum Value<'a> {
    Undefined,
    Error,
    Boolean(bool),
    Integer(i32),
    Real(f64),
    String(StringValue<'a>),
}

/// 01: "String values are literals of either ad; their bytes are shown as a part of
/// that ad's lent memory": which literal, and its bytes.
#[derive(Clone, Copy, Debug, PartialEq, Eq)]
pub struct StringValue<'a> {
    pub side: usize,
    pub node: usize,
    pub bytes: &'a [u8],
}

/// 01: "Not-a-number is always kept as the bits 0x7FF8000000000000."
pub const NOT_A_NUMBER: u64 = 0x7FF8_0000_0000_0000;

impl<'a> Value<'a> {
    /// A Real, with the one not-a-number.
    pub fn real(number: f64) -> Value<'a> {
        if number.is_nan() {
            Value::Real(f64::from_bits(NOT_A_NUMBER))
        } else {
            Value::Real(number)
        }
    }

    /// The name of the value's kind.
    pub fn kind(&self) -> &'static str {
        match self {
            Value::Undefined => "Undefined",
            Value::Error => "Error",
            Value::Boolean(_) => "Boolean",
            Value::Integer(_) => "Integer",
            Value::Real(_) => "Real",
            Value::String(_) => "String",
        }
    }
}

/// Identity of stored values, bit for bit, for comparing tables. The language's own
/// sameness is `is`, below.
impl PartialEq for Value<'_> {
    fn eq(&self, other: &Value) -> bool {
        match (self, other) {
            (Value::Undefined, Value::Undefined) => true,
            (Value::Error, Value::Error) => true,
            (Value::Boolean(one), Value::Boolean(two)) => one == two,
            (Value::Integer(one), Value::Integer(two)) => one == two,
            (Value::Real(one), Value::Real(two)) => one.to_bits() == two.to_bits(),
            (Value::String(one), Value::String(two)) => one == two,
            _ => false,
        }
    }
}

/// 01: "A real literal is the whole number of its digits divided by the power of ten
/// of its places, one rounding." Both are below 2^53 and so are exact.
pub fn real_literal<'a>(digits: u64, places: u32) -> Value<'a> {
    Value::real(digits as f64 / 10_u64.pow(places) as f64)
}

// Operators.

pub fn unary<'a>(operator: UnaryOperator, operand: Value<'a>) -> Value<'a> {
    match operator {
        UnaryOperator::Not => not(operand),
        UnaryOperator::Plus => plus(operand),
        UnaryOperator::Minus => minus(operand),
    }
}

pub fn binary<'a>(operator: BinaryOperator, left: Value<'a>, right: Value<'a>) -> Value<'a> {
    match operator {
        BinaryOperator::Or => or(left, right),
        BinaryOperator::And => and(left, right),
        BinaryOperator::Is => Value::Boolean(is(left, right)),
        BinaryOperator::Isnt => Value::Boolean(!is(left, right)),
        BinaryOperator::Add
        | BinaryOperator::Subtract
        | BinaryOperator::Multiply
        | BinaryOperator::Divide
        | BinaryOperator::Remainder => arithmetic(operator, left, right),
        BinaryOperator::Equal
        | BinaryOperator::NotEqual
        | BinaryOperator::Less
        | BinaryOperator::LessOrEqual
        | BinaryOperator::Greater
        | BinaryOperator::GreaterOrEqual => comparison(operator, left, right),
    }
}

// Logic.

/// 01: "Tables (F, U, T, and O for anything else)."
enum Truth {
    F,
    U,
    T,
    O,
}

fn truth(value: Value) -> Truth {
    match value {
        Value::Boolean(false) => Truth::F,
        Value::Undefined => Truth::U,
        Value::Boolean(true) => Truth::T,
        _ => Truth::O,
    }
}

/// 01: "`&&`: F row F F F F; U row F U U E; T row F U T E; O row E E E E."
fn and<'a>(left: Value, right: Value) -> Value<'a> {
    match (truth(left), truth(right)) {
        (Truth::F, _) => Value::Boolean(false),
        (Truth::O, _) => Value::Error,
        (Truth::U | Truth::T, Truth::O) => Value::Error,
        (Truth::U | Truth::T, Truth::F) => Value::Boolean(false),
        (Truth::U | Truth::T, Truth::U) => Value::Undefined,
        (Truth::U, Truth::T) => Value::Undefined,
        (Truth::T, Truth::T) => Value::Boolean(true),
    }
}

/// 01: "`||`: F row F U T E; U row U U T E; T row T T T T; O row E E E E."
fn or<'a>(left: Value, right: Value) -> Value<'a> {
    match (truth(left), truth(right)) {
        (Truth::T, _) => Value::Boolean(true),
        (Truth::O, _) => Value::Error,
        (Truth::F | Truth::U, Truth::O) => Value::Error,
        (Truth::F | Truth::U, Truth::T) => Value::Boolean(true),
        (Truth::F | Truth::U, Truth::U) => Value::Undefined,
        (Truth::U, Truth::F) => Value::Undefined,
        (Truth::F, Truth::F) => Value::Boolean(false),
    }
}

/// 01: "`!`: T, U, F, E."
fn not<'a>(operand: Value) -> Value<'a> {
    match truth(operand) {
        Truth::F => Value::Boolean(true),
        Truth::U => Value::Undefined,
        Truth::T => Value::Boolean(false),
        Truth::O => Value::Error,
    }
}

/// 01: "`?:`: F third operand, U Undefined, T second, O Error."
pub fn conditional<'a>(condition: Value, second: Value<'a>, third: Value<'a>) -> Value<'a> {
    match truth(condition) {
        Truth::F => third,
        Truth::U => Value::Undefined,
        Truth::T => second,
        Truth::O => Value::Error,
    }
}

// Strict operators. 01: "If an operand is neither Undefined nor of an admitted type, or
// the pair is not admitted: Error. Else if one is Undefined: Undefined. Else the
// result."

fn plus<'a>(operand: Value) -> Value<'a> {
    match operand {
        Value::Integer(value) => Value::Integer(value),
        Value::Real(value) => Value::real(value),
        Value::Undefined => Value::Undefined,
        Value::Error | Value::Boolean(_) | Value::String(_) => Value::Error,
    }
}

/// 01: "unary `-` wrap[s] at 32 bits".
fn minus<'a>(operand: Value) -> Value<'a> {
    match operand {
        Value::Integer(value) => Value::Integer(value.wrapping_neg()),
        Value::Real(value) => Value::real(-value),
        Value::Undefined => Value::Undefined,
        Value::Error | Value::Boolean(_) | Value::String(_) => Value::Error,
    }
}

/// 01: "Arithmetic admits two numbers". "Mixed: the Integer becomes Real first."
fn arithmetic<'a>(operator: BinaryOperator, left: Value, right: Value) -> Value<'a> {
    if !admitted_in_arithmetic(left) || !admitted_in_arithmetic(right) {
        return Value::Error;
    }
    if let (Value::Integer(left), Value::Integer(right)) = (left, right) {
        return integer_arithmetic(operator, left, right);
    }
    match (as_real(left), as_real(right)) {
        (Some(left), Some(right)) => Value::real(real_arithmetic(operator, left, right)),
        _ => Value::Undefined,
    }
}

fn admitted_in_arithmetic(value: Value) -> bool {
    matches!(value, Value::Undefined | Value::Integer(_) | Value::Real(_))
}

fn as_real(value: Value) -> Option<f64> {
    match value {
        Value::Integer(value) => Some(f64::from(value)),
        Value::Real(value) => Some(value),
        _ => None,
    }
}

/// 01: "Integer `+ - *` and unary `-` wrap at 32 bits; `/` truncates, `%` takes the
/// dividend's sign; a zero divisor is Error. -2147483648 / -1 is -2147483648 and `%`
/// gives 0."
fn integer_arithmetic<'a>(operator: BinaryOperator, left: i32, right: i32) -> Value<'a> {
    let result = match operator {
        BinaryOperator::Add => left.wrapping_add(right),
        BinaryOperator::Subtract => left.wrapping_sub(right),
        BinaryOperator::Multiply => left.wrapping_mul(right),
        _ if right == 0 => return Value::Error,
        BinaryOperator::Divide => left.wrapping_div(right),
        _ => left.wrapping_rem(right),
    };
    Value::Integer(result)
}

/// 01: "Real operations round once each." "Division by 0.0 gives infinity or
/// not-a-number, never Error." Remainder is Java's: exact, with the dividend's sign.
fn real_arithmetic(operator: BinaryOperator, left: f64, right: f64) -> f64 {
    match operator {
        BinaryOperator::Add => left + right,
        BinaryOperator::Subtract => left - right,
        BinaryOperator::Multiply => left * right,
        BinaryOperator::Divide => left / right,
        _ => left % right,
    }
}

/// 01: "comparison [admits] two numbers or two Strings. Booleans are not compared."
fn comparison<'a>(operator: BinaryOperator, left: Value, right: Value) -> Value<'a> {
    if !admitted_in_comparison(left) || !admitted_in_comparison(right) {
        return Value::Error;
    }
    match (left, right) {
        (Value::Undefined, _) | (_, Value::Undefined) => Value::Undefined,
        (Value::String(left), Value::String(right)) => {
            let order = compare_strings(left.bytes, right.bytes);
            Value::Boolean(holds(operator, Some(order)))
        }
        (Value::String(_), _) | (_, Value::String(_)) => Value::Error,
        _ => Value::Boolean(holds(operator, compare_numbers(left, right))),
    }
}

fn admitted_in_comparison(value: Value) -> bool {
    admitted_in_arithmetic(value) || matches!(value, Value::String(_))
}

/// 01: "Strings compare by bytes after ASCII lower case; a proper beginning is
/// smaller."
fn compare_strings(left: &[u8], right: &[u8]) -> Ordering {
    left.to_ascii_lowercase().cmp(&right.to_ascii_lowercase())
}

/// 01: "Real comparison is Java's": the two zeros are equal, and not-a-number stands
/// in no order to anything, itself included.
fn compare_numbers(left: Value, right: Value) -> Option<Ordering> {
    match (left, right) {
        (Value::Integer(left), Value::Integer(right)) => Some(left.cmp(&right)),
        _ => as_real(left)?.partial_cmp(&as_real(right)?),
    }
}

/// Whether a comparison holds for operands in this order; without an order only `!=`.
fn holds(operator: BinaryOperator, order: Option<Ordering>) -> bool {
    match operator {
        BinaryOperator::Equal => order == Some(Ordering::Equal),
        BinaryOperator::NotEqual => order != Some(Ordering::Equal),
        BinaryOperator::Less => order == Some(Ordering::Less),
        BinaryOperator::Greater => order == Some(Ordering::Greater),
        BinaryOperator::LessOrEqual => {
            order == Some(Ordering::Less) || order == Some(Ordering::Equal)
        }
        _ => order == Some(Ordering::Greater) || order == Some(Ordering::Equal),
    }
}

/// 01: "`is`: same kind and same value; Strings byte for byte; Reals numerically, so
/// not-a-number is never itself and 0.0 is -0.0. `isnt` negates. Never Undefined or
/// Error."
fn is(left: Value, right: Value) -> bool {
    match (left, right) {
        (Value::Undefined, Value::Undefined) => true,
        (Value::Error, Value::Error) => true,
        (Value::Boolean(left), Value::Boolean(right)) => left == right,
        (Value::Integer(left), Value::Integer(right)) => left == right,
        (Value::Real(left), Value::Real(right)) => left == right,
        (Value::String(left), Value::String(right)) => left.bytes == right.bytes,
        _ => false,
    }
}
