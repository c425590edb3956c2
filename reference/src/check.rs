//! Well-formedness of a tree. 01: "a stored ad is well formed exactly if reading some
//! text, were its length not bounded, would leave exactly this content". Refusal 10:
//! "stored numbers are no well-formed tree within the bounds above, levels of its
//! printed text included, text length not".

use crate::bounds;
use crate::bytes;
use crate::print::{operand_bindings, wants_parentheses};
use crate::refusal::{Reason, Refusal};
use crate::token::reserved;
use crate::tree::{Ad, Expression, Literal};

pub fn check(ad: &Ad) -> Result<(), Refusal> {
    let well_formed = within_counts(ad)
        && names_differ(ad)
        && ad.definitions.iter().all(|definition| {
            is_name(&definition.name)
                && leaves_possible(&definition.expression)
                && deepest_level(&definition.expression, 0) <= bounds::LEVEL
        });
    if well_formed {
        Ok(())
    } else {
        Err(Refusal::whole(Reason::NotWellFormed))
    }
}

/// 01: "room for 1,024 nodes, 256 definitions and 16,384 bytes of names and strings".
fn within_counts(ad: &Ad) -> bool {
    let stored: usize = ad.names_and_strings().iter().map(|part| part.len()).sum();
    ad.definitions.len() <= bounds::DEFINITIONS
        && ad.node_count() <= bounds::NODES
        && stored <= bounds::STORED_BYTES
}

/// Refusal 8: "name defined twice", "without regard to ASCII case".
fn names_differ(ad: &Ad) -> bool {
    ad.definitions
        .iter()
        .enumerate()
        .all(|(index, definition)| ad.find(&definition.name) == Some(index))
}

/// 01: "Name: a letter or `_`, then letters, digits, `_`", at most 64 bytes and not
/// reserved.
fn is_name(name: &[u8]) -> bool {
    (1..=bounds::NAME_BYTES).contains(&name.len())
        && bytes::starts_name(name[0])
        && name.iter().all(|&byte| bytes::continues_name(byte))
        && reserved(name).is_none()
}

fn leaves_possible(expression: &Expression) -> bool {
    let mut possible = true;
    expression.walk(&mut |node| {
        possible &= match node {
            Expression::Literal(literal) => is_possible_literal(literal),
            Expression::Reference(_, name) => is_name(name),
            _ => true,
        }
    });
    possible
}

/// What some literal's text could leave. A Real has a digit on either side of its
/// point and 15 in all, so 1 to 14 places and digits below 10^15.
fn is_possible_literal(literal: &Literal) -> bool {
    match literal {
        Literal::Undefined | Literal::Error | Literal::Boolean(_) => true,
        Literal::Integer(value) => u64::from(*value) <= bounds::INTEGER,
        Literal::Real { digits, places } => {
            (1..=14).contains(places) && *digits < 1_000_000_000_000_000
        }
        Literal::String(content) => {
            content.len() <= bounds::STRING_BYTES
                && content.iter().all(|&byte| bytes::possible_in_string(byte))
        }
    }
}

/// The deepest level of the printed text of an expression that starts at `level`:
/// "The inside of parentheses, the operand of a unary operator and both arms of a
/// conditional are one level deeper."
pub fn deepest_level(expression: &Expression, level: usize) -> usize {
    let needed = operand_bindings(expression);
    let operands = expression.operands();
    let mut deepest = level;
    for (index, operand) in operands.iter().enumerate() {
        let place = level + usize::from(operand_is_deeper(expression, index));
        let inside = place + usize::from(wants_parentheses(operand, needed[index]));
        deepest = deepest.max(deepest_level(operand, inside));
    }
    deepest
}

fn operand_is_deeper(expression: &Expression, index: usize) -> bool {
    match expression {
        Expression::Unary(..) => true,
        Expression::Conditional(..) => index > 0,
        _ => false,
    }
}
