//! Texts: the library's answer and the whole memory that it leaves, against the reference's.

pub mod draw;

use crate::cases::Cases;
use crate::layout::{self, Stored};
use crate::memory::{has_room, Rooms};
use crate::report::{first_difference, Report, Table};
use crate::shrink::shrunk;
use classad::sys as library;
use draw::{Text, Texts, FAMILIES};
use reference::read::read;

/// Answers by number: 0 is accepted, the others are refusals.
const ANSWERS: [&str; 10] = ["accepted", "1", "2", "3", "4", "5", "6", "7", "8", "9"];

pub fn run(cases: &Cases) -> Report {
    let answers = Table::new("compared, by answer", &FAMILIES, &ANSWERS);
    let mut report = Report::new(cases, vec![answers]);
    let texts = Texts::new(cases.seed);
    for (index, mut rng) in cases.each() {
        let Text { family, text } = texts.draw(&mut rng);
        let rooms = Rooms::draw(&mut rng, 3);
        let (got, expected) = both(&text, &rooms);
        let answer = expected.answer[0] as usize;
        let same = got == expected;
        report.compare(index, family, answer, same, || describe(&text, &rooms));
    }
    report
}

/// What a call answers and leaves. The answer is 0, the definitions and the nodes, or a
/// refusal's number, its place and 0.
#[derive(PartialEq, Eq)]
struct Outcome {
    answer: [u64; 3],
    memory: Stored,
}

fn both(text: &[u8], rooms: &Rooms) -> (Outcome, Outcome) {
    (by_library(text, rooms), by_reference(text, rooms))
}

fn by_library(text: &[u8], rooms: &Rooms) -> Outcome {
    let mut memory = rooms.noise();
    let mut answer = [u64::MAX; 3];
    library::read(text, &mut memory.words, &mut memory.bytes, &mut answer);
    Outcome { answer, memory }
}

fn by_reference(text: &[u8], rooms: &Rooms) -> Outcome {
    let mut memory = rooms.noise();
    let answer = expected(text, &mut memory.words, &mut memory.bytes);
    Outcome { answer, memory }
}

/// The answer, and in the memory what it should hold: refusals 1 and 2 leave all unchanged,
/// the others the ad's memory zero; what lies beyond the required sizes is kept.
pub fn expected(text: &[u8], words: &mut [u64], bytes: &mut [u8]) -> [u64; 3] {
    if !has_room(words, bytes) {
        return [1, 0, 0];
    }
    let (answer, left) = match read(text) {
        Ok(ad) => {
            let counts = [0, ad.definitions.len() as u64, ad.node_count() as u64];
            (counts, Some(Stored::of(&ad)))
        }
        Err(refusal) => {
            let number = refusal.number();
            let left = (number > 2).then(Stored::zero);
            ([number as u64, refusal.place as u64, 0], left)
        }
    };
    if let Some(left) = left {
        words[..layout::WORDS].copy_from_slice(&left.words);
        bytes[..layout::BYTES].copy_from_slice(&left.bytes);
    }
    answer
}

// What a difference looks like.

/// How much of a text is shown.
const SHOWN: usize = 400;

fn describe(text: &[u8], rooms: &Rooms) -> String {
    let small = shrunk(text, |text| {
        let (got, expected) = both(text, rooms);
        got != expected
    });
    let (got, expected) = both(&small, rooms);
    let mut lines = format!(
        "text       {} bytes; of them {} suffice:\n{}\nmemory     {}\n",
        text.len(),
        small.len(),
        small[..small.len().min(SHOWN)].escape_ascii(),
        rooms.show()
    );
    lines += &format!("library    {}\n", show(got.answer));
    lines += &format!("reference  {}\n", show(expected.answer));
    lines += &first_difference("word", &got.memory.words, &expected.memory.words);
    lines += &first_difference("byte", &got.memory.bytes, &expected.memory.bytes);
    lines
}

fn show(answer: [u64; 3]) -> String {
    match answer {
        [0, definitions, nodes] => format!("accepted, {definitions} definitions, {nodes} nodes"),
        [number, place, _] => format!("refused {number} at {place}"),
    }
}
