//! Reading, checking, printing, dependencies and matching in any lent memory.

use super::draw::{Call, Draw, GuardedAd};
use super::guarded::Guarded;
use crate::layout::{self, Stored};
use crate::matching::call::{LIST, TABLE};
use crate::{checking, dependencies, matching, printing, reading};
use classad::sys as library;
use reference::bounds::{SLOTS, TEXT_BYTES};
use reference::graph;
use reference::tree::Ad;

/// The column of an answer's first number.
fn column(number: u64) -> usize {
    match number {
        0 | 1 => number as usize,
        2..=9 => 2,
        10 => 3,
        _ => 4,
    }
}

/// The call of an answer that should be this.
pub fn answered(mut answer: Guarded<u64>, expected: &[u64]) -> Call {
    answer.expect_front(expected);
    Call {
        column: column(expected[0]),
        slices: vec![Box::new(answer)],
        inputs: Vec::new(),
    }
}

/// The text is drawn by its own rules, and at times of a length at its bound.
pub fn read(draw: &mut Draw) -> Call {
    let drawn = draw.texts.draw(&mut draw.rng).text;
    let text = if draw.rng.chance(25) {
        draw.bytes("text", &drawn, TEXT_BYTES)
    } else {
        draw.whole("text", &drawn)
    };
    let mut words = draw.words("words", &[], layout::WORDS);
    let mut bytes = draw.bytes("bytes", &[], layout::BYTES);
    let mut answer = draw.answer(3);
    library::read(
        text.slice(),
        words.slice_mut(),
        bytes.slice_mut(),
        answer.array_mut(),
    );
    let expected = reading::expected(text.slice(), words.expected_mut(), bytes.expected_mut());
    answered(answer, &expected)
        .with(text)
        .with(words)
        .with(bytes)
}

pub fn check(draw: &mut Draw) -> Call {
    let ad = draw.ad(["words", "bytes"]);
    let mut answer = draw.answer(4);
    library::check(ad.words.slice(), ad.bytes.slice(), answer.array_mut());
    let expected = checking::expected(ad.tree().as_ref());
    answered(answer, &expected).with_ad("ad", ad)
}

pub fn print(draw: &mut Draw) -> Call {
    let ad = draw.ad(["words", "bytes"]);
    let tree = ad.tree();
    let length = checking::expected(tree.as_ref())[3] as usize;
    let mut output = draw.bytes("output", &[], length.min(TEXT_BYTES));
    let mut answer = draw.answer(2);
    library::print(
        ad.words.slice(),
        ad.bytes.slice(),
        output.slice_mut(),
        answer.array_mut(),
    );
    let expected = printing::expected(tree.as_ref(), output.expected_mut());
    answered(answer, &expected).with(output).with_ad("ad", ad)
}

fn two_ads(draw: &mut Draw) -> [GuardedAd; 2] {
    [
        draw.ad(["words 1", "bytes 1"]),
        draw.ad(["words 2", "bytes 2"]),
    ]
}

/// Both trees; or the number of the refusal, 1 before 10, whichever ad has it.
fn trees([first, second]: &[GuardedAd; 2], rooms_suffice: bool) -> Result<[Ad; 2], u64> {
    match [first.tree(), second.tree()] {
        [Err(1), _] | [_, Err(1)] => Err(1),
        _ if !rooms_suffice => Err(1),
        [Ok(first), Ok(second)] => Ok([first, second]),
        _ => Err(10),
    }
}

pub fn dependencies(draw: &mut Draw) -> Call {
    let ads = two_ads(draw);
    let mut flags = draw.words("flags", &[], SLOTS);
    let mut list = draw.words("list", &[], SLOTS);
    let mut answer = draw.answer(3);
    let [first, second] = &ads;
    library::dependencies(
        [first.words.slice(), second.words.slice()],
        [first.bytes.slice(), second.bytes.slice()],
        flags.slice_mut(),
        list.slice_mut(),
        answer.array_mut(),
    );
    let trees = trees(&ads, flags.len() >= SLOTS && list.len() >= SLOTS);
    let expected = dependencies::expected(&trees, flags.expected_mut(), list.expected_mut());
    let [first, second] = ads;
    let call = answered(answer, &expected).with(flags).with(list);
    call.with_ad("first", first).with_ad("second", second)
}

pub fn matching(draw: &mut Draw) -> Call {
    let ads = two_ads(draw);
    let mut table = draw.words("table", &[], TABLE);
    let mut list = draw.words("list", &[], LIST);
    let mut answer = draw.answer(7);
    let budget = *draw.rng.pick(&[0, 1, 5, 20, 100, u16::MAX]);
    let [first, second] = &ads;
    library::matching(
        [first.words.slice(), second.words.slice()],
        [first.bytes.slice(), second.bytes.slice()],
        table.slice_mut(),
        list.slice_mut(),
        budget,
        answer.array_mut(),
    );
    let trees = trees(&ads, table.len() >= TABLE && list.len() >= LIST);
    let stored = stored(&trees);
    let graph = trees
        .as_ref()
        .map(|[first, second]| graph::Pair::new(first, second));
    let rooms = [table.expected_mut(), list.expected_mut()];
    let expected = matching::expected(&graph, budget, &stored, rooms);
    let [first, second] = ads;
    let call = answered(answer, &expected).with(table).with(list);
    let call = call.with_number("budget", u64::from(budget));
    call.with_ad("first", first).with_ad("second", second)
}

fn stored(trees: &Result<[Ad; 2], u64>) -> [Stored; 2] {
    match trees {
        Ok(ads) => [Stored::of(&ads[0]), Stored::of(&ads[1])],
        Err(_) => [Stored::zero(), Stored::zero()],
    }
}
