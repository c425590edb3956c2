//! Compares the proved library with the reference on seeded inputs. Case number `index` of
//! a run depends on the seed and the index alone, so that each can be repeated by itself.

mod boundary;
mod cases;
mod checking;
mod commands;
mod damage;
mod decode;
mod dependencies;
mod layout;
mod matching;
mod memory;
mod pairs;
mod printing;
mod reading;
mod report;
mod sample;
mod shrink;
mod slot;
mod stored;
mod transitions;
mod values;

use cases::Cases;
use report::Report;
use std::process::ExitCode;
use std::sync::atomic::{AtomicBool, AtomicUsize, Ordering};
use std::thread;

const USAGE: &str = "usage: tests/run NAME SEED COUNT [FROM]
       tests/run all SEED COUNT
NAME is values, reading, checking, printing, dependencies, matching, boundary or commands.
COUNT cases of SEED, from number FROM on (0 without it); for all of them COUNT is shared out.
";

/// All compared and no difference; some difference, or too little compared; a wrong command line.
const SAME: u8 = 0;
const DIFFERENT: u8 = 1;
const FAULT: u8 = 2;

/// A run, and how many of every 1,000 cases of `all` are its own.
struct Run {
    name: &'static str,
    run: fn(&Cases) -> Report,
    share: u64,
}

/// Cheap cases have large shares, so that each run takes seconds of a short `all`; a case of
/// `commands` starts several programs.
const RUNS: [Run; 8] = [
    of("values", values::run, 246),
    of("reading", reading::run, 100),
    of("checking", checking::run, 250),
    of("printing", printing::run, 100),
    of("dependencies", dependencies::run, 100),
    of("matching", matching::run, 100),
    of("boundary", boundary::run, 100),
    of("commands", commands::run, 4),
];

const fn of(name: &'static str, run: fn(&Cases) -> Report, share: u64) -> Run {
    Run { name, run, share }
}

fn main() -> ExitCode {
    let words: Vec<String> = std::env::args().skip(1).collect();
    let Some((name, numbers)) = words.split_first() else {
        return usage();
    };
    let one = RUNS.iter().find(|run| run.name == name.as_str());
    let good = match (one, name.as_str(), numbers) {
        (Some(run), _, numbers) => {
            Cases::of(run.name, numbers).map(|cases| finish(run, &cases, ""))
        }
        (None, "all", [seed, count]) => all(seed, count),
        _ => None,
    };
    match good {
        Some(true) => ExitCode::from(SAME),
        Some(false) => ExitCode::from(DIFFERENT),
        None => usage(),
    }
}

fn usage() -> ExitCode {
    eprint!("{USAGE}");
    ExitCode::from(FAULT)
}

/// Makes a run and prints its report, with `end` behind it; whether all was the same.
fn finish(run: &Run, cases: &Cases, end: &str) -> bool {
    let report = (run.run)(cases);
    cases.ended();
    print!("{}{end}", report.text());
    report.good()
}

/// As much as a program's first thread has.
const STACK_BYTES: usize = 8 << 20;

/// All runs with their shares of the cases, at least one case each, as many at a time as there
/// are processors. A run with a difference does not keep the others from running.
fn all(seed: &str, count: &str) -> Option<bool> {
    let (seed, count) = (seed.parse().ok()?, count.parse::<u64>().ok()?);
    count.checked_mul(1_000)?;
    let next = AtomicUsize::new(0);
    let good = RUNS.each_ref().map(|_| AtomicBool::new(false));
    let work = || {
        // The last takes longest, so it begins first.
        while let Some(at) = RUNS
            .len()
            .checked_sub(1 + next.fetch_add(1, Ordering::Relaxed))
        {
            let run = &RUNS[at];
            let cases = Cases::new(run.name, seed, 0, (count * run.share).div_ceil(1_000));
            good[at].store(finish(run, &cases, "\n"), Ordering::Relaxed);
        }
    };
    let threads = thread::available_parallelism().map_or(1, |count| count.get());
    thread::scope(|scope| {
        for _ in 0..threads.min(RUNS.len()) {
            let thread = thread::Builder::new().stack_size(STACK_BYTES);
            thread.spawn_scoped(scope, work).expect("a thread starts");
        }
    });
    let bad: Vec<&str> = (RUNS.iter().zip(&good))
        .filter(|(_, good)| !good.load(Ordering::Relaxed))
        .map(|(run, _)| run.name)
        .collect();
    let (runs, names) = (RUNS.len(), bad.join(", "));
    match bad.len() {
        0 => println!("all of seed {seed}: {runs} runs, no difference"),
        count => println!("all of seed {seed}: {runs} runs, {count} not good: {names}"),
    }
    Some(bad.is_empty())
}
