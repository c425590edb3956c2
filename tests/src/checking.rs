//! Stored numbers: the library's check of them against the reference's.

use crate::cases::Cases;
use crate::layout::Stored;
use crate::memory::Rooms;
use crate::report::{Report, Table};
use crate::sample::Sample;
use crate::shrink::shrunk_samples;
use crate::stored::{families, Samples};
use classad::sys as library;
use reference::print::printed_text;
use reference::tree::Ad;

const ANSWERS: [&str; 3] = ["accepted", "1", "10"];

pub fn run(cases: &Cases) -> Report {
    let answers = Table::new("compared, by answer", &families(), &ANSWERS);
    let mut report = Report::new(cases, vec![answers]);
    let samples = Samples::new();
    for (index, mut rng) in cases.each() {
        let (family, sample) = samples.draw(&mut rng, 60);
        let rooms = Rooms::draw(&mut rng, 2);
        let (got, expected) = both(&sample, &rooms);
        let answer = column(expected.answer[0]);
        let same = got == expected;
        report.compare(index, family, answer, same, || describe(&sample, &rooms));
    }
    report
}

fn column(number: u64) -> usize {
    match number {
        0 => 0,
        1 => 1,
        _ => 2,
    }
}

/// What a call answers and leaves: 0, the definitions, the nodes and the length of the
/// print, or a refusal's number and zeros.
#[derive(PartialEq, Eq)]
struct Outcome {
    answer: [u64; 4],
    memory: Stored,
}

fn both(sample: &Sample, rooms: &Rooms) -> (Outcome, Outcome) {
    let memory = rooms.holding(&sample.memory());
    let before = memory.clone();
    let mut answer = [u64::MAX; 4];
    library::check(&memory.words, &memory.bytes, &mut answer);
    let got = Outcome { answer, memory };
    let expected = Outcome {
        answer: expected(rooms.tree(sample).as_ref()),
        memory: before,
    };
    (got, expected)
}

/// The answer for a tree, or for the refusal of its memory.
pub fn expected(tree: Result<&Ad, &u64>) -> [u64; 4] {
    match tree {
        Err(number) => [*number, 0, 0, 0],
        Ok(ad) => {
            let counts = [
                ad.definitions.len(),
                ad.node_count(),
                printed_text(ad).len(),
            ];
            let [definitions, nodes, length] = counts.map(|count| count as u64);
            [0, definitions, nodes, length]
        }
    }
}

fn describe(sample: &Sample, rooms: &Rooms) -> String {
    let [small] = shrunk_samples(std::array::from_ref(sample), |[sample]| {
        let (got, expected) = both(sample, rooms);
        got != expected
    });
    let (got, expected) = both(&small, rooms);
    let kept = if got.memory == expected.memory {
        ""
    } else {
        ", and the memory changed"
    };
    format!(
        "ad         {}memory     {}\nlibrary    {}{kept}\nreference  {}\n",
        small.show(),
        rooms.show(),
        show(got.answer),
        show(expected.answer)
    )
}

fn show(answer: [u64; 4]) -> String {
    match answer {
        [0, definitions, nodes, length] => {
            format!("accepted, {definitions} definitions, {nodes} nodes, print of {length} bytes")
        }
        [number, rest @ ..] => format!("refused {number}, then {rest:?}"),
    }
}
