//! Tables of any values, right or wrong, for step and run.

use crate::graph::{NodeId, Pair};
use crate::matching::{Slot, Table};
use crate::rng::Rng;
use crate::tree::{Expression, Literal};
use crate::value::{StringValue, Value, NOT_A_NUMBER};

/// A table with any slot for each node of both ads.
pub fn any_table<'a>(rng: &mut Rng, pair: &Pair<'a>) -> Table<'a> {
    let mut table = Table::blank();
    for node in pair.nodes() {
        table.set(node, any_slot(rng, pair));
    }
    table
}

/// Blank or any value. 01: "String values are literals of either ad", so there are
/// strings only where an ad has one.
pub fn any_slot<'a>(rng: &mut Rng, pair: &Pair<'a>) -> Slot<'a> {
    let bits = rng.bits();
    Some(match rng.below(8) {
        0 => return None,
        1 => Value::Undefined,
        2 => Value::Error,
        3 => Value::Boolean(bits & 1 == 1),
        4 => Value::Integer(bits as i32),
        5 => Value::real(f64::from_bits(bits)),
        6 => Value::Real(f64::from_bits(NOT_A_NUMBER)),
        _ => any_string(rng, pair).unwrap_or(Value::Integer(0)),
    })
}

/// The first string literal behind a random node, going round.
fn any_string<'a>(rng: &mut Rng, pair: &Pair<'a>) -> Option<Value<'a>> {
    let nodes = pair.nodes();
    let start = rng.below(nodes.len().max(1));
    for &id in nodes.iter().cycle().skip(start).take(nodes.len()) {
        if let Expression::Literal(Literal::String(bytes)) = pair.node(id).expression {
            let NodeId { side, node } = id;
            return Some(Value::String(StringValue { side, node, bytes }));
        }
    }
    None
}
