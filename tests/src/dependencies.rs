//! Circular references and the list of two ads, against the reference's plain reachability
//! and recursive list, and the number of transitions.

use crate::cases::Cases;
use crate::layout::Stored;
use crate::matching::list_words;
use crate::memory::{noise_words, size};
use crate::pairs::{Pair, FAMILIES};
use crate::report::{first_difference, Report, Table};
use crate::shrink::shrunk_samples;
use crate::stored::Samples;
use crate::transitions;
use classad::sys as library;
use reference::bounds::SLOTS;
use reference::graph;
use reference::rng::Rng;
use reference::tree::Ad;

const ANSWERS: [&str; 4] = ["loops", "no loop", "1", "10"];

pub fn run(cases: &Cases) -> Report {
    let answers = Table::new("compared, by answer", &FAMILIES, &ANSWERS);
    let mut report = Report::new(cases, vec![answers]);
    let stored = Samples::new();
    for (index, mut rng) in cases.each() {
        let (family, pair) = Pair::draw(&mut rng, &stored);
        let call = Call::draw(&mut rng, pair);
        let (got, expected) = both(&call);
        let same = got == expected;
        report.compare(index, family, column(&expected), same, || describe(&call));
    }
    report
}

fn column(expected: &Outcome) -> usize {
    match expected.answer[0] {
        0 => usize::from(!expected.flags[..SLOTS].contains(&1)),
        1 => 2,
        _ => 3,
    }
}

/// Two ads in memory, the sizes of flags and list, and the seed of their noise.
#[derive(Clone)]
struct Call {
    pair: Pair,
    flags: usize,
    list: usize,
    noise: u64,
}

impl Call {
    fn draw(rng: &mut Rng, pair: Pair) -> Call {
        let short = rng.below(100);
        Call {
            pair,
            flags: size(rng, SLOTS, short <= 1),
            list: size(rng, SLOTS, short == 1 || short == 2),
            noise: rng.bits(),
        }
    }

    fn rooms(&self) -> [Vec<u64>; 2] {
        [
            noise_words(self.noise, self.flags),
            noise_words(!self.noise, self.list),
        ]
    }
}

/// What a call answers and leaves: refusal, transitions and the list's length.
#[derive(PartialEq, Eq)]
struct Outcome {
    answer: [u64; 3],
    flags: Vec<u64>,
    list: Vec<u64>,
    ads: [Stored; 2],
}

fn both(call: &Call) -> (Outcome, Outcome) {
    let ads = call.pair.memories();
    let trees = call.pair.trees(call.flags >= SLOTS && call.list >= SLOTS);
    let expected = by_reference(call, &trees, ads.clone());
    let got = by_library(call, ads);
    (got, expected)
}

fn by_library(call: &Call, ads: [Stored; 2]) -> Outcome {
    let [mut flags, mut list] = call.rooms();
    let mut answer = [u64::MAX; 3];
    let second = if call.pair.twice { &ads[0] } else { &ads[1] };
    library::dependencies(
        [&ads[0].words, &second.words],
        [&ads[0].bytes, &second.bytes],
        &mut flags,
        &mut list,
        &mut answer,
    );
    Outcome {
        answer,
        flags,
        list,
        ads,
    }
}

fn by_reference(call: &Call, trees: &Result<[Ad; 2], u64>, ads: [Stored; 2]) -> Outcome {
    let [mut flags, mut list] = call.rooms();
    let answer = expected(trees, &mut flags, &mut list);
    Outcome {
        answer,
        flags,
        list,
        ads,
    }
}

/// The answer, and in flags and list what they should hold; a refusal leaves all unchanged.
pub fn expected(trees: &Result<[Ad; 2], u64>, flags: &mut [u64], list: &mut [u64]) -> [u64; 3] {
    match trees {
        Err(number) => [*number, 0, 0],
        Ok([first, second]) => {
            let pair = graph::Pair::new(first, second);
            let order = pair.evaluation_order();
            flags[..SLOTS].fill(0);
            for id in pair.circular_references() {
                flags[id.slot()] = 1;
            }
            list[..SLOTS].copy_from_slice(&list_words(&order));
            [0, transitions::expected(&pair), order.len() as u64]
        }
    }
}

fn describe(call: &Call) -> String {
    let with = |samples: &_| Call {
        pair: call.pair.with(samples),
        ..call.clone()
    };
    let small = with(&shrunk_samples(&call.pair.samples, |samples| {
        let (got, expected) = both(&with(samples));
        got != expected
    }));
    let (got, expected) = both(&small);
    let mut lines = small.pair.show();
    lines += &format!(
        "flags      {} words, list {} words\n",
        call.flags, call.list
    );
    lines += &format!("library    {}\n", show(got.answer));
    lines += &format!("reference  {}\n", show(expected.answer));
    lines += &first_difference("flag", &got.flags, &expected.flags);
    lines += &first_difference("list entry", &got.list, &expected.list);
    if got.ads != expected.ads {
        lines += "an ad's memory changed\n";
    }
    lines
}

fn show(answer: [u64; 3]) -> String {
    match answer {
        [0, transitions, length] => format!("{transitions} transitions, a list of {length}"),
        [number, ..] => format!("refused {number}: {answer:?}"),
    }
}
