//! The C functions in any lent memory: lengths drawn one by one, contents whole, damaged or
//! noise, and memory on both sides of each slice that must stay as it was.

mod ads;
mod draw;
mod guarded;
mod operators;
mod parts;

use crate::cases::Cases;
use crate::reading::draw::Texts;
use crate::report::{Report, Table};
use crate::stored::Samples;
use draw::{Call, Draw, LENGTHS};

/// The last column is a blank slot, no definition, no such node or no bytes.
const ANSWERS: [&str; 6] = ["answered", "1", "2 to 9", "10", "11", "nothing"];

/// A function's name, how many of a hundred of its slices are short, and a call of it. Where
/// one short slice refuses the whole call, few are.
type Function = (&'static str, usize, fn(&mut Draw) -> Call);

const FUNCTIONS: [Function; 14] = [
    ("binary", 40, operators::binary),
    ("unary", 40, operators::unary),
    ("conditional", 40, operators::conditional),
    ("real", 40, operators::real),
    ("read", 12, ads::read),
    ("check", 12, ads::check),
    ("print", 12, ads::print),
    ("dependencies", 12, ads::dependencies),
    ("match", 12, ads::matching),
    ("value", 40, parts::value),
    ("string", 40, parts::string),
    ("definition", 40, parts::definition),
    ("expression", 12, parts::expression),
    ("position", 40, parts::position),
];

pub fn run(cases: &Cases) -> Report {
    let names = FUNCTIONS.map(|(name, ..)| name);
    let tables = vec![
        Table::new("compared, by answer", &names, &ANSWERS),
        Table::new("lengths of slices", &names, &LENGTHS),
    ];
    let mut report = Report::new(cases, tables);
    let stored = Samples::new();
    let texts = Texts::new(cases.seed);
    for (index, mut rng) in cases.each() {
        let row = rng.below(FUNCTIONS.len());
        let mut draw = Draw {
            rng,
            stored: &stored,
            texts: &texts,
            short: FUNCTIONS[row].1,
            lengths: Vec::new(),
        };
        let call = FUNCTIONS[row].2(&mut draw);
        count_lengths(&mut report.tables[1], row, &draw.lengths);
        let same = call.slices.iter().all(|slice| slice.same());
        report.compare(index, row, call.column, same, || describe(&call));
    }
    report
}

fn count_lengths(table: &mut Table, row: usize, lengths: &[usize]) {
    for &kind in lengths {
        table.add(row, kind);
    }
}

/// What went in, then each slice as it is after the call. Places below 0 or from the length
/// on lie outside of the slice.
fn describe(call: &Call) -> String {
    let inputs = call.inputs.iter().map(|input| input.show());
    let slices = call.slices.iter().map(|slice| slice.show());
    inputs.chain(slices).collect()
}
