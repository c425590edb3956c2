//! The tree that a stored ad's memory holds, read here by docs/LAYOUT.md.

use crate::layout::{Stored, NODE_WORDS};
use reference::bounds;
use reference::check::check;
use reference::tree::{Ad, BinaryOperator, Definition, Expression, Literal, Scope, UnaryOperator};

/// Document 01: "a stored ad is well formed exactly if reading some text, were its length
/// not bounded, would leave exactly this content, zeros included". So: the numbers are taken
/// for a tree in order, whatever they say of offsets and operands; the reference's check
/// accepts the tree; and the tree's own memory is exactly this.
pub fn well_formed(memory: &Stored) -> Option<Ad> {
    let ad = tree(memory)?;
    (check(&ad).is_ok() && Stored::of(&ad) == *memory).then_some(ad)
}

/// A definition has a name, so the first without one ends them.
fn tree(memory: &Stored) -> Option<Ad> {
    let mut ad = Ad::default();
    let mut nodes = 0;
    for number in 0..bounds::DEFINITIONS {
        let at = NODE_WORDS + 3 * number;
        let (offset, length) = (memory.words[at], memory.words[at + 1]);
        let root = usize::try_from(memory.words[at + 2]).ok()?;
        if length == 0 {
            break;
        }
        let name = part(memory, offset, length)?;
        let expression = expression(memory, nodes, root)?;
        ad.definitions.push(Definition { name, expression });
        nodes = root + 1;
    }
    Some(ad)
}

/// A name's or string's bytes.
fn part(memory: &Stored, offset: u64, length: u64) -> Option<Vec<u8>> {
    let start = usize::try_from(offset).ok()?;
    let end = start.checked_add(usize::try_from(length).ok()?)?;
    memory.bytes.get(start..end).map(<[u8]>::to_vec)
}

/// The tree of the nodes from `first` to `root`, an operator's operands being the last ones
/// before it.
fn expression(memory: &Stored, first: usize, root: usize) -> Option<Expression> {
    if root >= bounds::NODES {
        return None;
    }
    let mut above = Vec::new();
    for number in first..=root {
        let node = node(memory, number, &mut above)?;
        above.push(node);
    }
    let whole = above.pop();
    whole.filter(|_| above.is_empty())
}

fn node(memory: &Stored, number: usize, above: &mut Vec<Expression>) -> Option<Expression> {
    let words = &memory.words[4 * number..4 * number + 4];
    let (kind, one, two) = (words[0], words[1], words[2]);
    Some(match kind {
        1..=6 => Expression::Literal(literal(memory, kind, one, two)?),
        7 => Expression::Reference(Scope::Own, part(memory, one, two)?),
        8 => Expression::Reference(Scope::Other, part(memory, one, two)?),
        9..=11 => {
            let operator = UnaryOperator::ALL[kind as usize - 9];
            Expression::Unary(operator, above.pop()?.into())
        }
        12 => {
            let (third, second, first) = (above.pop()?, above.pop()?, above.pop()?);
            Expression::Conditional(first.into(), second.into(), third.into())
        }
        13..=27 => {
            let operator = BinaryOperator::ALL[kind as usize - 13];
            let (right, left) = (above.pop()?, above.pop()?);
            Expression::Binary(operator, left.into(), right.into())
        }
        _ => return None,
    })
}

fn literal(memory: &Stored, kind: u64, one: u64, two: u64) -> Option<Literal> {
    Some(match kind {
        1 => Literal::Undefined,
        2 => Literal::Error,
        3 => Literal::Boolean(one == 1),
        4 => Literal::Integer(u32::try_from(one).ok()?),
        5 => Literal::Real {
            digits: one,
            places: u32::try_from(two).ok()?,
        },
        _ => Literal::String(part(memory, one, two)?),
    })
}
