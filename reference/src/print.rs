//! Tree to text. 01, "Printing".

use crate::bounds::{self, AdRoom};
use crate::bytes;
use crate::check::check;
use crate::refusal::{Reason, Refusal};
use crate::tree::{binding, Ad, Expression, Literal, Scope};

/// Prints into an output of 16,384 bytes.
pub fn print(ad: &Ad) -> Result<Vec<u8>, Refusal> {
    print_into(AdRoom::REQUIRED, ad, bounds::TEXT_BYTES)
}

/// 01: "Printing checks 1, 10, then 11." Refusal 11: "printed text longer than the
/// lent output or than 16,384".
pub fn print_into(room: AdRoom, ad: &Ad, output: usize) -> Result<Vec<u8>, Refusal> {
    if !room.suffices() {
        return Err(Refusal::whole(Reason::RoomTooSmall));
    }
    check(ad)?;
    let text = printed_text(ad);
    if text.len() > output || text.len() > bounds::TEXT_BYTES {
        return Err(Refusal::whole(Reason::PrintTooLong));
    }
    Ok(text)
}

/// 01: "`[`, definitions as `name = expression` joined by `; `, `]`." Of any length,
/// with no check.
pub fn printed_text(ad: &Ad) -> Vec<u8> {
    let mut text = vec![b'['];
    for (index, definition) in ad.definitions.iter().enumerate() {
        if index > 0 {
            text.extend(b"; ");
        }
        text.extend(&definition.name);
        text.extend(b" = ");
        put_expression(&definition.expression, &mut text);
    }
    text.push(b']');
    text
}

/// 01: "One blank on each side of a binary operator and of `?` and `:`; none after a
/// unary one; no blank in `other.name`; keywords in lower case".
fn put_expression(expression: &Expression, text: &mut Vec<u8>) {
    let needed = operand_bindings(expression);
    match expression {
        Expression::Literal(literal) => put_literal(literal, text),
        Expression::Reference(Scope::Own, name) => text.extend(name),
        Expression::Reference(Scope::Other, name) => {
            text.extend(b"other.");
            text.extend(name);
        }
        Expression::Unary(operator, operand) => {
            text.extend(operator.spelling().as_bytes());
            put_operand(operand, needed[0], text);
        }
        Expression::Binary(operator, left, right) => {
            put_operand(left, needed[0], text);
            text.push(b' ');
            text.extend(operator.spelling().as_bytes());
            text.push(b' ');
            put_operand(right, needed[1], text);
        }
        Expression::Conditional(condition, second, third) => {
            put_operand(condition, needed[0], text);
            text.extend(b" ? ");
            put_operand(second, needed[1], text);
            text.extend(b" : ");
            put_operand(third, needed[2], text);
        }
    }
}

/// The least binding that each operand's place takes without parentheses. "Binary
/// operators group to the left", so the right side must bind tighter; the condition
/// is "an `||`-expression"; the arms are whole expressions.
pub fn operand_bindings(expression: &Expression) -> Vec<u8> {
    match expression {
        Expression::Literal(_) | Expression::Reference(..) => vec![],
        Expression::Unary(..) => vec![binding::UNARY],
        Expression::Binary(operator, ..) => vec![operator.binding(), operator.binding() + 1],
        Expression::Conditional(..) => {
            vec![binding::OR, binding::CONDITIONAL, binding::CONDITIONAL]
        }
    }
}

/// 01: "Parentheses only where the tree would otherwise read differently."
pub fn wants_parentheses(operand: &Expression, needed: u8) -> bool {
    operand.binding() < needed
}

fn put_operand(operand: &Expression, needed: u8, text: &mut Vec<u8>) {
    if wants_parentheses(operand, needed) {
        text.push(b'(');
        put_expression(operand, text);
        text.push(b')');
    } else {
        put_expression(operand, text);
    }
}

fn put_literal(literal: &Literal, text: &mut Vec<u8>) {
    match literal {
        Literal::Undefined => text.extend(b"undefined"),
        Literal::Error => text.extend(b"error"),
        Literal::Boolean(true) => text.extend(b"true"),
        Literal::Boolean(false) => text.extend(b"false"),
        Literal::Integer(value) => text.extend(value.to_string().as_bytes()),
        Literal::Real { digits, places } => put_real(*digits, *places as usize, text),
        Literal::String(content) => put_string(content, text),
    }
}

/// 01: "Numbers without idle leading zeros, one digit kept before the point, all
/// digits after it."
fn put_real(digits: u64, places: usize, text: &mut Vec<u8>) {
    let padded = format!("{digits:0width$}", width = places + 1);
    let (before, after) = padded.split_at(padded.len() - places);
    text.extend(before.as_bytes());
    text.push(b'.');
    text.extend(after.as_bytes());
}

pub fn put_string(content: &[u8], text: &mut Vec<u8>) {
    text.push(b'"');
    for &byte in content {
        match bytes::escape_letter(byte) {
            Some(letter) => text.extend([b'\\', letter]),
            None => text.push(byte),
        }
    }
    text.push(b'"');
}
