//! Parts of what a match or a reading left: value, string, definition, expression and
//! position, worked out here by docs/LAYOUT.md from the reference's tree and values.

use super::ads::answered;
use super::draw::{Call, Draw};
use crate::layout::{self, NODE_WORDS};
use crate::matching::call::TABLE;
use crate::printing;
use crate::slot::{self, Place, Words};
use crate::values::draw::Case;
use classad::sys as library;
use reference::bounds::{DEFINITIONS, NODES, STORED_BYTES, TEXT_BYTES};
use reference::report::line_and_column;

/// The column of `super::ANSWERS` for an answer that tells that there is nothing.
const NOTHING: usize = 5;

/// The column of an answer that has no refusals.
fn plain(mut call: Call, something: bool) -> Call {
    call.column = if something { 0 } else { NOTHING };
    call
}

// Value.

/// A table of values with idle bits here and there, and of slots that are none.
fn any_table(draw: &mut Draw) -> Vec<u64> {
    let mut table = Vec::new();
    while table.len() < TABLE {
        let case = Case::draw(&mut draw.rng);
        table.extend(case.operands.concat());
        table.extend(crate::values::draw::blank(&mut draw.rng));
        table.extend([draw.rng.below(8) as u64, draw.rng.bits()]);
    }
    table
}

pub fn value(draw: &mut Draw) -> Call {
    let content = any_table(draw);
    let table = draw.words("table", &content, TABLE);
    let node = draw.node();
    let second = *draw.rng.pick(&[0, 0, 1, 1, 2, u64::MAX, 1 << 32]);
    let mut answer = draw.answer(4);
    library::value(table.slice(), second, node, answer.array_mut());
    let expected = value_numbers(slot_words(table.slice(), second, node));
    let call = answered(answer, &expected).with(table);
    let call = call.with_number("second", second);
    plain(call.with_number("node", node as u64), expected[0] != 0)
}

/// Words beyond the table read as 0, and so does a node that no ad can have.
fn slot_words(table: &[u64], second: u64, node: usize) -> Words {
    if node >= NODES {
        return [0, 0];
    }
    let slot = NODES * usize::from(second != 0) + node;
    [0, 1].map(|word| table.get(2 * slot + word).copied().unwrap_or(0))
}

/// Kind and what it carries; of a String its side, offset and length.
fn value_numbers(words: Words) -> [u64; 4] {
    let memories = [Vec::new(), Vec::new()];
    let [kind, load] = slot::words(slot::value(words, &memories, 0), &[words]);
    if kind != slot::STRING {
        return [kind, load, 0, 0];
    }
    let place = Place::of(load);
    let numbers = [u64::from(place.offset), u64::from(place.length)];
    [kind, place.side as u64, numbers[0], numbers[1]]
}

// String.

pub fn string(draw: &mut Draw) -> Call {
    let room = *draw.rng.pick(&[20, 300, STORED_BYTES]);
    let memories = ["first", "second"].map(|name| draw.bytes(name, &[], room));
    let side = *draw.rng.pick(&[0, 1, 2, u64::MAX]);
    let mut number = || match draw.rng.below(4) {
        0 => draw.rng.bits() as u16,
        1 => *draw.rng.pick(&[0, 1, u16::MAX]),
        _ => draw.rng.below(room + 2) as u16,
    };
    let (offset, length) = (number(), number());
    let mut answer = draw.answer(2);
    let bytes = [memories[0].slice(), memories[1].slice()];
    library::string(bytes, side, offset, length, answer.array_mut());
    let held = bytes[usize::from(side != 0)].len() as u64;
    let start = u64::from(offset).min(held);
    let count = u64::from(length).min(held - start);
    let call = answered(answer, &[start, count]);
    let call = memories.into_iter().fold(call, Call::with);
    let call = call.with_number("side", side);
    let call = call.with_number("offset", u64::from(offset));
    plain(call.with_number("length", u64::from(length)), count > 0)
}

// Definition and expression.

/// Any node, or one at the end of some definition: one of the first, any, the last there can be.
fn node_of(draw: &mut Draw, words: &[u64]) -> usize {
    let number = match draw.rng.below(4) {
        0 => draw.rng.below(DEFINITIONS),
        1 => DEFINITIONS - 1,
        _ => draw.rng.below(8),
    };
    match words.get(NODE_WORDS + 3 * number + 2) {
        Some(&root) if draw.rng.chance(40) => (root as usize).wrapping_add(draw.rng.below(2)),
        _ => draw.node(),
    }
}

pub fn definition(draw: &mut Draw) -> Call {
    let ad = draw.ad(["words", "bytes"]);
    let node = node_of(draw, ad.words.slice());
    let mut answer = draw.answer(4);
    library::definition(ad.words.slice(), node, answer.array_mut());
    let expected = definition_numbers(ad.words.slice(), node);
    let call = answered(answer, &expected).with_ad("ad", ad);
    plain(call.with_number("node", node as u64), expected[0] != 0)
}

/// The first definition whose root is not below the node, none where the words are fewer than
/// an ad's. A definition has a name, so the first without one ends them.
fn definition_numbers(words: &[u64], node: usize) -> [u64; 4] {
    if words.len() < layout::WORDS {
        return [0; 4];
    }
    let definitions = (0..DEFINITIONS).map(|number| {
        let at = NODE_WORDS + 3 * number;
        [number as u64, words[at], words[at + 1], words[at + 2]]
    });
    let mut stored = definitions.take_while(|[_, _, length, _]| *length > 0);
    match stored.find(|[_, _, _, root]| *root >= node as u64) {
        Some([number, offset, length, _]) => [1, number, offset, length],
        None => [0; 4],
    }
}

pub fn expression(draw: &mut Draw) -> Call {
    let ad = draw.ad(["words", "bytes"]);
    let tree = ad.tree();
    let node = node_of(draw, ad.words.slice());
    let text = tree.map(|tree| {
        let numbered = tree.numbered();
        let found = numbered.nodes.get(node);
        found.map_or(Vec::new(), |node| {
            printing::expression_text(node.expression)
        })
    });
    let room = text.as_ref().map_or(30, Vec::len).min(TEXT_BYTES);
    let mut output = draw.bytes("output", &[], room);
    let mut answer = draw.answer(2);
    library::expression(
        ad.words.slice(),
        ad.bytes.slice(),
        node,
        output.slice_mut(),
        answer.array_mut(),
    );
    let most = output.len().min(TEXT_BYTES);
    let fitting = text.and_then(|text| if text.len() > most { Err(11) } else { Ok(text) });
    let expected = printing::written(fitting, output.expected_mut());
    let nothing = expected == [0, 0];
    let call = answered(answer, &expected).with(output).with_ad("ad", ad);
    let call = call.with_number("node", node as u64);
    if nothing {
        plain(call, false)
    } else {
        call
    }
}

// Position.

pub fn position(draw: &mut Draw) -> Call {
    let drawn = draw.texts.draw(&mut draw.rng).text;
    let text = if draw.rng.chance(50) {
        draw.bytes("text", &drawn, drawn.len())
    } else {
        let lines = *draw.rng.pick(&[1, 2, 10]);
        let byte = |_| {
            if draw.rng.below(10) < lines {
                b'\n'
            } else {
                draw.rng.byte()
            }
        };
        let content: Vec<u8> = (0..40).map(byte).collect();
        draw.bytes("text", &content, 40)
    };
    let place = match draw.rng.below(6) {
        0 => draw.node(),
        1 => text.len() + draw.rng.below(2),
        _ => draw.rng.below(text.len() + 1),
    };
    let mut answer = draw.answer(2);
    library::position(text.slice(), place, answer.array_mut());
    let (line, column) = line_and_column(text.slice(), place.min(text.len()));
    let expected = [line as u64, column as u64];
    let call = answered(answer, &expected).with(text);
    plain(call.with_number("place", place as u64), true)
}
