//! The commands: on generated files, all programs that have a command print the same.

mod case;
mod names;
mod programs;
mod refused;
mod shown;
mod trace;
mod untrue;

use crate::cases::Cases;
use crate::reading::draw::Texts;
use crate::report::{Report, Table};
use crate::shrink::shrunk_within;
use crate::stored::Samples;
use case::{Case, Command, COMMANDS};
use programs::{Output, Program, PROGRAMS};
use std::fs;
use std::path::{Path, PathBuf};

/// Each smaller text starts all programs again.
const TRIES: usize = 300;

/// By the status that docs/COMMANDS.md gives.
const ANSWERS: [&str; 2] = ["status 0", "status 1"];

/// Places of tables in the report.
const REFUSALS: usize = 2;
const REQUIREMENTS: usize = 3;
const ARROWS: usize = 4;

/// So many cases must show every phrase, kind of value and kind of arrow.
const ENOUGH: u64 = 1_600;

pub fn run(cases: &Cases) -> Report {
    let names = PROGRAMS.map(|program| program.name);
    let tables = vec![
        Table::new("compared, by answer", &COMMANDS, &ANSWERS),
        Table::new("programs started", &COMMANDS, &names),
        Table::new("refusals shown", &shown::PHRASES, &COMMANDS),
        Table::new("untrue Requirements", &shown::VALUES, &shown::SIDES),
        Table::new("arrows of graphs", &shown::ARROWS, &shown::SIDES),
    ];
    let mut report = Report::new(cases, tables);
    let built = built(&mut report);
    if built.len() < 2 {
        report.note("fewer than two programs are built, so that nothing can be compared");
        return report;
    }
    let folder = Folder::new();
    let texts = Texts::new(cases.seed);
    let stored = Samples::new();
    for (index, mut rng) in cases.each() {
        let case = Case::draw(&mut rng, &texts, &stored);
        count_programs(&mut report.tables[1], &case);
        let outputs = outputs(&built, &case, &folder.path);
        let answer = usize::from(outputs[0].1.status != Some(0));
        let row = case.command as usize;
        count_shown(&mut report.tables, row, &outputs[0].1);
        report.compare(index, row, answer, agree(&outputs), || {
            describe(&built, &case, &folder.path)
        });
    }
    if cases.count >= ENOUGH {
        for table in [REFUSALS, REQUIREMENTS, ARROWS] {
            report.require_rows(table);
        }
    }
    report
}

/// The programs that are there, and a line for each that is not.
fn built(report: &mut Report) -> Vec<Program> {
    let (built, missing): (Vec<Program>, Vec<Program>) =
        PROGRAMS.into_iter().partition(Program::is_built);
    for program in missing {
        let line = format!(
            "{} is left out: {} is not built",
            program.name, program.path
        );
        report.note(&line);
    }
    built
}

fn count_programs(table: &mut Table, case: &Case) {
    for (column, program) in PROGRAMS.iter().enumerate() {
        if program.is_built() && program.has(case.command) {
            table.add(case.command as usize, column);
        }
    }
}

/// What the lines of an output show: causes of refusal, values of Requirements, arrows.
fn count_shown(tables: &mut [Table], command: usize, output: &Output) {
    let text = String::from_utf8_lossy(&output.text);
    for line in text.lines() {
        if let Some(phrase) = shown::phrase(line) {
            tables[REFUSALS].add(phrase, command);
        }
        if let Some((value, side)) = shown::untrue(line) {
            tables[REQUIREMENTS].add(value, side);
        }
        if let Some((arrow, side)) = shown::arrow(line) {
            tables[ARROWS].add(arrow, side);
        }
    }
}

/// What each program gives; for a trace first what should be given, as the second program has
/// no such command.
fn outputs(built: &[Program], case: &Case, folder: &Path) -> Vec<(&'static str, Output)> {
    case.write(folder);
    let mut outputs = Vec::new();
    if case.command == Command::Trace {
        outputs.push(("reference's match", trace::expected(case)));
    }
    for program in built.iter().filter(|program| program.has(case.command)) {
        outputs.push((program.name, program.run(case, folder)));
    }
    outputs
}

fn agree(outputs: &[(&str, Output)]) -> bool {
    outputs
        .iter()
        .all(|(_, output)| output.agrees(&outputs[0].1))
}

fn describe(built: &[Program], case: &Case, folder: &Path) -> String {
    let small = shrunk_case(built, case, folder);
    let outputs = outputs(built, &small, folder).into_iter();
    let shown = outputs.map(|(name, output)| format!("{name:<10} {}", output.show()));
    small.show() + &shown.collect::<String>()
}

/// The case with as much left out of each text as leaves a difference.
fn shrunk_case(built: &[Program], case: &Case, folder: &Path) -> Case {
    let mut small = case.clone();
    for number in 0..case.texts.len() {
        let with = |text: &[u8]| {
            let mut changed = small.clone();
            changed.texts[number] = text.to_vec();
            changed
        };
        let differs = |text: &[u8]| !agree(&outputs(built, &with(text), folder));
        let text = shrunk_within(&small.texts[number], TRIES, differs);
        small = with(&text);
    }
    small
}

/// A folder of this process for the files, which goes with it.
struct Folder {
    path: PathBuf,
}

impl Folder {
    fn new() -> Folder {
        let name = format!("commands-{}", std::process::id());
        let path = Path::new(env!("CARGO_MANIFEST_DIR"))
            .join("target")
            .join(name);
        fs::create_dir_all(&path).expect("a folder for the files");
        Folder { path }
    }
}

impl Drop for Folder {
    fn drop(&mut self) {
        // What stays behind is in a folder of built files.
        let _ = fs::remove_dir_all(&self.path);
    }
}
