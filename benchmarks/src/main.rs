//! Times the proved library and the reference in one run, or draws how their times grow.

mod calls;
mod clock;
mod growth;
mod lines;
mod markdown;
mod pairs;
mod plot;
mod tables;
mod texts;

use std::process::ExitCode;

const USAGE: &str = "usage: benchmarks/run [ROUNDS]
       benchmarks/run plot [ROUNDS]
The first prints the tables of docs/PERFORMANCE.md, the second draws docs/growth-*.svg.
";

/// How often all lines are gone through, and how many rounds a line has each time.
const PASSES: usize = 5;
const ROUNDS: usize = 41;
const PLOT_ROUNDS: usize = 51;

/// A wrong command line, or a file that cannot be written.
const FAULT: u8 = 2;

fn main() -> ExitCode {
    let words: Vec<String> = std::env::args().skip(1).collect();
    let words: Vec<&str> = words.iter().map(String::as_str).collect();
    let done = match words[..] {
        [] => measure(Some(ROUNDS)),
        ["plot"] => draw(Some(PLOT_ROUNDS)),
        ["plot", rounds] => draw(number(rounds)),
        [rounds] => measure(number(rounds)),
        _ => Err(USAGE.to_string()),
    };
    match done {
        Ok(()) => ExitCode::SUCCESS,
        Err(message) => {
            eprint!("{message}");
            ExitCode::from(FAULT)
        }
    }
}

fn number(word: &str) -> Option<usize> {
    word.parse().ok().filter(|&rounds| rounds > 0)
}

fn measure(rounds: Option<usize>) -> Result<(), String> {
    let rounds = rounds.ok_or(USAGE)?;
    println!(
        "Medians of {PASSES} passes of {rounds} rounds, taken together, processor time of the thread. The programs take turns, all built\n\
         for release, the reference with overflow checks; it allocates and frees its trees within its\n\
         calls. The linear reference is the same with a linear search for circular references. Spread\n\
         is the 10th to the 90th percentile of a ratio, itself that of the library's to itself.\n\n\
         Load before: {}\n",
        load()
    );
    print!("{}", tables::run(PASSES, rounds));
    println!("\nLoad after: {}", load());
    Ok(())
}

fn draw(rounds: Option<usize>) -> Result<(), String> {
    let rounds = rounds.ok_or(USAGE)?;
    println!("load before: {}", load());
    for (file, plot) in growth::plots(rounds) {
        let path = format!("docs/{file}");
        std::fs::write(&path, plot.svg()).map_err(|fault| format!("{path}: {fault}\n"))?;
        println!("{}{path}", plot.text());
    }
    println!("load after: {}", load());
    Ok(())
}

/// How many processes ran or waited for a processor, over 1, 5 and 15 minutes.
fn load() -> String {
    let told = std::fs::read_to_string("/proc/loadavg").unwrap_or_default();
    let numbers: Vec<&str> = told.split_whitespace().take(3).collect();
    let cores = std::thread::available_parallelism().map_or(0, |cores| cores.get());
    format!("{} on {cores} cores", numbers.join(" "))
}
