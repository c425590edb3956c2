//! Matches: the library's answer, the whole table and list that it leaves, and all other
//! memory, against the reference's; and the same with the ads exchanged.

pub mod call;

use crate::cases::Cases;
use crate::layout::Stored;
use crate::pairs::{Pair, FAMILIES};
use crate::report::{first_difference, Report, Table};
use crate::shrink::shrunk_samples;
use crate::slot::{self, Words, KINDS};
use crate::stored::Samples;
use crate::transitions;
use call::{Call, BUDGETS, LIST, TABLE};
use classad::sys as library;
use reference::bounds;
use reference::graph::{self, NodeId};
use reference::matching::{match_pair, Match};

const ANSWERS: [&str; 5] = ["matched", "unmatched", "not done", "1", "10"];
const EXCHANGED: usize = FAMILIES.len();
const LAW: usize = FAMILIES.len() + 1;

pub fn run(cases: &Cases) -> Report {
    let rows = [&FAMILIES[..], &["ads exchanged", "both ways alike"]].concat();
    let tables = vec![
        Table::new("compared, by answer", &rows, &ANSWERS),
        Table::new("budget", &BUDGETS, &ANSWERS),
        Table::new("slots worked out", &["first ad", "second ad"], &KINDS[1..]),
    ];
    let mut report = Report::new(cases, tables);
    let stored = Samples::new();
    for (index, mut rng) in cases.each() {
        let (family, pair) = Pair::draw(&mut rng, &stored);
        let call = Call::draw(&mut rng, pair);
        let answers = [
            compare(&mut report, index, family, &call),
            compare(&mut report, index, EXCHANGED, &call.exchanged()),
        ];
        let column = column(&answers[0]);
        report.tables[1].add(call.budget.kind, column);
        let same = answers[0][..6] == turned(&answers[1]);
        report.compare(index, LAW, column, same, || {
            format!("{}answers    {answers:?}\n", call.pair.show())
        });
    }
    report
}

/// The library's answer.
fn compare(report: &mut Report, index: u64, row: usize, call: &Call) -> [u64; 7] {
    let (got, expected) = both(call);
    count_slots(&mut report.tables[2], &expected.table);
    let same = got == expected;
    let column = column(&expected.answer);
    report.compare(index, row, column, same, || describe(call));
    got.answer
}

fn column(answer: &[u64; 7]) -> usize {
    match answer {
        [0, 1, 1, ..] => 0,
        [0, 1, ..] => 1,
        [0, ..] => 2,
        [1, ..] => 3,
        _ => 4,
    }
}

/// The answer that the exchanged ads should have, transitions apart.
fn turned(answer: &[u64; 7]) -> [u64; 6] {
    let [refusal, finished, matched, first_rank, second_rank, steps, _] = *answer;
    [refusal, finished, matched, second_rank, first_rank, steps]
}

fn count_slots(counts: &mut Table, table: &[u64]) {
    for (number, slot) in table[..TABLE.min(table.len())].chunks(2).enumerate() {
        let kind = slot[0] as usize;
        if (1..KINDS.len()).contains(&kind) {
            counts.add(number / bounds::NODES, kind - 1);
        }
    }
}

/// What a call answers and leaves: refusal, finished, matched, both ranks, steps and
/// transitions.
#[derive(PartialEq, Eq)]
struct Outcome {
    answer: [u64; 7],
    table: Vec<u64>,
    list: Vec<u64>,
    ads: [Stored; 2],
}

fn both(call: &Call) -> (Outcome, Outcome) {
    let ads = call.pair.memories();
    let trees = call.trees();
    let graph = trees
        .as_ref()
        .map(|[first, second]| graph::Pair::new(first, second));
    let budget = budget(call, &graph);
    let expected = by_reference(call, &graph, budget, ads.clone());
    let got = by_library(call, budget, ads);
    (got, expected)
}

/// The reference's view of two ads, or the number of the refusal.
pub type Graph<'a> = Result<graph::Pair<'a>, &'a u64>;

fn budget(call: &Call, graph: &Graph) -> u16 {
    let length = graph
        .as_ref()
        .map_or(0, |graph| graph.evaluation_order().len());
    call.budget.of(length)
}

fn by_library(call: &Call, budget: u16, ads: [Stored; 2]) -> Outcome {
    let [mut table, mut list] = call.rooms();
    let mut answer = [u64::MAX; 7];
    let second = if call.pair.twice { &ads[0] } else { &ads[1] };
    library::matching(
        [&ads[0].words, &second.words],
        [&ads[0].bytes, &second.bytes],
        &mut table,
        &mut list,
        budget,
        &mut answer,
    );
    Outcome {
        answer,
        table,
        list,
        ads,
    }
}

fn by_reference(call: &Call, graph: &Graph, budget: u16, ads: [Stored; 2]) -> Outcome {
    let [mut table, mut list] = call.rooms();
    let answer = expected(graph, budget, &ads, [&mut table, &mut list]);
    Outcome {
        answer,
        table,
        list,
        ads,
    }
}

/// The answer, and in table and list what they should hold; a refusal leaves all unchanged.
pub fn expected(
    graph: &Graph,
    budget: u16,
    ads: &[Stored; 2],
    [table, list]: [&mut [u64]; 2],
) -> [u64; 7] {
    match graph {
        Err(number) => [**number, 0, 0, 0, 0, 0, 0],
        Ok(graph) => {
            let result = match_pair(graph, budget);
            table[..TABLE].copy_from_slice(&table_words(&result, ads));
            list[..LIST].copy_from_slice(&list_words(&result.order));
            numbers(&result, transitions::expected(graph))
        }
    }
}

fn numbers(result: &Match, transitions: u64) -> [u64; 7] {
    let steps = result.steps as u64;
    match result.verdict {
        None => [0, 0, 0, 0, 0, steps, transitions],
        Some(verdict) => {
            let ranks = [verdict.first_rank, verdict.second_rank].map(|rank| rank as u64);
            let matched = u64::from(verdict.matched);
            [0, 1, matched, ranks[0], ranks[1], steps, transitions]
        }
    }
}

fn table_words(result: &Match, ads: &[Stored; 2]) -> Vec<u64> {
    let slots = result.table.slots().iter();
    slots
        .flat_map(|&value| slot::words_in(value, ads))
        .collect()
}

/// An entry is 1 + 1,024 · side + node; then zeros.
pub fn list_words(order: &[NodeId]) -> Vec<u64> {
    let mut words: Vec<u64> = order.iter().map(|id| 1 + id.slot() as u64).collect();
    words.resize(LIST, 0);
    words
}

// What a difference looks like.

fn describe(call: &Call) -> String {
    let small = call.with(&shrunk_samples(&call.pair.samples, |samples| {
        let (got, expected) = both(&call.with(samples));
        got != expected
    }));
    let (got, expected) = both(&small);
    let mut lines = small.pair.show();
    lines += &format!(
        "           table {} words, list {} words",
        call.table, call.list
    );
    lines += &format!(", budget {}\n", BUDGETS[call.budget.kind]);
    lines += &format!("library    {}\n", show(&got.answer));
    lines += &format!("reference  {}\n", show(&expected.answer));
    lines += &first_slot(&got, &expected);
    lines += &first_difference("list entry", &got.list, &expected.list);
    if got.ads != expected.ads {
        lines += "an ad's memory changed\n";
    }
    lines
}

fn show(answer: &[u64; 7]) -> String {
    let [refusal, finished, matched, first_rank, second_rank, steps, transitions] = answer;
    if *refusal != 0 {
        return format!("refused {answer:?}");
    }
    format!(
        "finished {finished}, matched {matched}, ranks {first_rank} and {second_rank}, \
         {steps} steps, {transitions} transitions"
    )
}

fn first_slot(got: &Outcome, expected: &Outcome) -> String {
    let pairs = got.table.chunks(2).zip(expected.table.chunks(2));
    let Some((at, (got, expected))) = pairs.enumerate().find(|(_, (got, should))| got != should)
    else {
        return String::new();
    };
    let words = |slot: &[u64]| -> Words { [slot[0], slot.get(1).copied().unwrap_or(0)] };
    let memories = [Vec::new(), Vec::new()];
    format!(
        "slot {at}: library {}, reference {}\n",
        slot::show(words(got), &memories),
        slot::show(words(expected), &memories)
    )
}
