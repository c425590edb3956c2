//! The value of a node, first from the values of its needs, then by memoised
//! recursion over needs. No list and no table is used here.

use crate::bounds;
use crate::graph::{NodeId, Pair};
use crate::tree::{Expression, Literal};
use crate::value::{self, StringValue, Value};

/// 01: "A node's value is what the rules make of the values of its needs, no table
/// read." `needs` holds one value for each of the node's needs, in their order.
pub fn node_value<'a>(pair: &Pair<'a>, id: NodeId, needs: &[Value<'a>]) -> Value<'a> {
    match pair.node(id).expression {
        Expression::Literal(literal) => literal_value(literal, id),
        Expression::Reference(..) => reference_value(needs),
        Expression::Unary(operator, _) => value::unary(*operator, needs[0]),
        Expression::Binary(operator, ..) => value::binary(*operator, needs[0], needs[1]),
        Expression::Conditional(..) => value::conditional(needs[0], needs[1], needs[2]),
    }
}

/// A reference with no need is circular or has no definition: 01: "none found is
/// Undefined"; "circular and is Undefined". Otherwise it has its definition's value.
fn reference_value<'a>(needs: &[Value<'a>]) -> Value<'a> {
    needs.first().copied().unwrap_or(Value::Undefined)
}

fn literal_value<'a>(literal: &'a Literal, id: NodeId) -> Value<'a> {
    match literal {
        Literal::Undefined => Value::Undefined,
        Literal::Error => Value::Error,
        Literal::Boolean(value) => Value::Boolean(*value),
        Literal::Integer(value) => Value::Integer(*value as i32),
        Literal::Real { digits, places } => value::real_literal(*digits, *places),
        Literal::String(bytes) => Value::String(StringValue {
            side: id.side,
            node: id.node,
            bytes,
        }),
    }
}

/// Values worked out so far, by slot.
pub struct Evaluator<'p, 'a> {
    pair: &'p Pair<'a>,
    known: Vec<Option<Value<'a>>>,
}

impl<'p, 'a> Evaluator<'p, 'a> {
    pub fn new(pair: &'p Pair<'a>) -> Evaluator<'p, 'a> {
        Evaluator {
            pair,
            known: vec![None; bounds::SLOTS],
        }
    }

    /// The value of any node of either ad. The recursion ends, as every loop of links
    /// passes a circular reference, and that needs nothing.
    pub fn value(&mut self, id: NodeId) -> Value<'a> {
        if let Some(value) = self.known[id.slot()] {
            return value;
        }
        let mut needs = Vec::new();
        for &need in self.pair.needs(id) {
            needs.push(self.value(need));
        }
        let value = node_value(self.pair, id, &needs);
        self.known[id.slot()] = Some(value);
        value
    }

    /// The value of a definition's expression.
    pub fn definition(&mut self, side: usize, name: &[u8]) -> Option<Value<'a>> {
        let root = self.pair.definition_root(side, name)?;
        Some(self.value(root))
    }
}
