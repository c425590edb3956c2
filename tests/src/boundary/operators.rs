//! The operators: words of `operands` that are not there read as 0, and of the result as much
//! is written as there is room for.

use super::draw::{Call, Draw};
use super::guarded::Guarded;
use crate::layout::{binary_kind, unary_kind};
use crate::slot::{self, Words};
use crate::values::draw::{no_operator, Case};
use classad::sys as library;
use reference::tree::{BinaryOperator, UnaryOperator};
use reference::value::{self, Value};

/// The columns of `super::ANSWERS` for a value and for a blank slot.
const VALUE: usize = 0;
const BLANK: usize = 5;

/// The operands as the library sees them: slots of the lent words.
struct Operands {
    slots: [Words; 3],
    memories: [Vec<u8>; 2],
}

impl Operands {
    fn of(words: &[u64], memories: [&[u8]; 2]) -> Operands {
        let word = |at: usize| words.get(at).copied().unwrap_or(0);
        Operands {
            slots: [0, 1, 2].map(|slot| [word(2 * slot), word(2 * slot + 1)]),
            memories: memories.map(<[u8]>::to_vec),
        }
    }

    fn value(&self, number: usize) -> Option<Value<'_>> {
        slot::value(self.slots[number], &self.memories, number)
    }

    /// The words of an answer, blank where there is none.
    fn words(&self, value: Option<Value>) -> Words {
        slot::words(value, &self.slots)
    }
}

/// A call whose result should be these words, as far as there is room.
fn call(mut result: Guarded<u64>, words: Words) -> Call {
    result.expect_front(&words);
    Call {
        column: if words[0] == slot::BLANK {
            BLANK
        } else {
            VALUE
        },
        slices: vec![Box::new(result)],
        inputs: Vec::new(),
    }
}

pub fn binary(draw: &mut Draw) -> Call {
    let case = Case::draw(&mut draw.rng);
    let room = |side: usize| case.memories[side].len();
    let first = draw.bytes("first", &case.memories[0], room(0));
    let second = draw.bytes("second", &case.memories[1], room(1));
    let operands = draw.words("operands", &case.operands.concat(), 4);
    let mut result = draw.words("result", &[], 2);
    let operator = *draw.rng.pick(&BinaryOperator::ALL);
    let named = draw.rng.chance(90);
    let kind = if named {
        binary_kind(operator)
    } else {
        no_operator(&mut draw.rng)
    };
    library::binary(
        first.slice(),
        second.slice(),
        kind,
        operands.slice(),
        result.slice_mut(),
    );
    let given = Operands::of(operands.slice(), [first.slice(), second.slice()]);
    let answer = match (given.value(0), given.value(1)) {
        (Some(left), Some(right)) if named => Some(value::binary(operator, left, right)),
        _ => None,
    };
    let words = given.words(answer);
    let call = call(result, words).with_number("kind", kind);
    call.with(operands).with(first).with(second)
}

pub fn unary(draw: &mut Draw) -> Call {
    let case = Case::draw(&mut draw.rng);
    let operands = draw.words("operands", &case.operands.concat(), 2);
    let mut result = draw.words("result", &[], 2);
    let operator = *draw.rng.pick(&UnaryOperator::ALL);
    let named = draw.rng.chance(90);
    let kind = if named {
        unary_kind(operator)
    } else {
        no_operator(&mut draw.rng)
    };
    library::unary(kind, operands.slice(), result.slice_mut());
    let given = Operands::of(operands.slice(), [&[], &[]]);
    let answer = given.value(0).filter(|_| named);
    let words = given.words(answer.map(|operand| value::unary(operator, operand)));
    let call = call(result, words).with_number("kind", kind);
    call.with(operands)
}

/// The condition stands in front.
pub fn conditional(draw: &mut Draw) -> Call {
    let mut case = Case::draw(&mut draw.rng);
    case.operands.rotate_right(1);
    let operands = draw.words("operands", &case.operands.concat(), 6);
    let mut result = draw.words("result", &[], 2);
    library::conditional(operands.slice(), result.slice_mut());
    let given = Operands::of(operands.slice(), [&[], &[]]);
    let answer = match [0, 1, 2].map(|number| given.value(number)) {
        [Some(condition), Some(second), Some(third)] => {
            Some(value::conditional(condition, second, third))
        }
        _ => None,
    };
    let words = given.words(answer);
    call(result, words).with(operands)
}

/// 0.0 where no literal has such numbers.
pub fn real(draw: &mut Draw) -> Call {
    let (digits, places) = Case::draw(&mut draw.rng).literal;
    let mut result = draw.words("result", &[], 2);
    library::real(digits, places, result.slice_mut());
    let answer = if digits < 10_u64.pow(15) && (1..15).contains(&places) {
        value::real_literal(digits, places as u32)
    } else {
        Value::Real(0.0)
    };
    let call = call(result, slot::words(Some(answer), &[]));
    call.with_number("digits", digits)
        .with_number("places", places)
}
