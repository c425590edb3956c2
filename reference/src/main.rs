//! The command. docs/COMMANDS.md gives the form of its lines.

use reference::bounds;
use reference::generate::coverage::Coverage;
use reference::generate::{budgets, Body, Generator};
use reference::graph::Pair;
use reference::graphviz::graphviz;
use reference::matching::match_ads;
use reference::print::print;
use reference::read::read;
use reference::report;
use reference::tree::Ad;
use std::fs::{self, File};
use std::io::{self, Read, Write};
use std::path::Path;
use std::process::ExitCode;

const USAGE: &str = "usage: reference read FILE
       reference print FILE
       reference match FIRST SECOND [BUDGET]
       reference graph FIRST SECOND
       reference generate SEED COUNT [DIRECTORY]
FILE, FIRST and SECOND may be - for standard input, at most once.
";

/// Matched, accepted or written.
const GOOD: u8 = 0;
/// Unmatched, not done or refused.
const BAD: u8 = 1;
/// Usage or input error.
const FAULT: u8 = 2;

fn main() -> ExitCode {
    let arguments: Vec<String> = std::env::args_os()
        .skip(1)
        .map(|argument| argument.to_string_lossy().into_owned())
        .collect();
    let words: Vec<&str> = arguments.iter().map(String::as_str).collect();
    let answer = match words[..] {
        ["read", file] => read_command(file),
        ["print", file] => print_command(file),
        ["match", first, second] => match_command(first, second, "65535"),
        ["match", first, second, budget] => match_command(first, second, budget),
        ["graph", first, second] => graph_command(first, second),
        ["generate", seed, count] => generate_command(seed, count, None),
        ["generate", seed, count, directory] => generate_command(seed, count, Some(directory)),
        _ => Err(USAGE.to_string()),
    };
    match answer.and_then(|(output, status)| put(&output).map(|()| status)) {
        Ok(status) => ExitCode::from(status),
        Err(message) => {
            eprint!("{message}");
            ExitCode::from(FAULT)
        }
    }
}

/// What a command prints and its exit status, or a message for standard error.
type Answer = Result<(Vec<u8>, u8), String>;

fn put(output: &[u8]) -> Result<(), String> {
    let mut standard = io::stdout().lock();
    let written = standard.write_all(output).and_then(|()| standard.flush());
    written.map_err(|fault| format!("reference: cannot write: {fault}\n"))
}

/// The text of a file or of standard input. One byte beyond the bound is enough to
/// know that a text is too long.
fn text_of(file: &str) -> Result<Vec<u8>, String> {
    let limit = bounds::TEXT_BYTES as u64 + 1;
    let mut text = Vec::new();
    let done = if file == "-" {
        io::stdin().lock().take(limit).read_to_end(&mut text)
    } else {
        File::open(file).and_then(|opened| opened.take(limit).read_to_end(&mut text))
    };
    done.map_err(|fault| format!("reference: cannot read {file}: {fault}\n"))?;
    Ok(text)
}

/// The ad in a file, or the lines of its refusal.
fn ad_of(file: &str) -> Result<Result<Ad, String>, String> {
    let text = text_of(file)?;
    Ok(read(&text).map_err(|refusal| report::refused(file, &text, &refusal)))
}

fn read_command(file: &str) -> Answer {
    Ok(match ad_of(file)? {
        Ok(ad) => (report::accepted(file, &ad).into_bytes(), GOOD),
        Err(lines) => (lines.into_bytes(), BAD),
    })
}

fn print_command(file: &str) -> Answer {
    let ad = match ad_of(file)? {
        Ok(ad) => ad,
        Err(lines) => return Ok((lines.into_bytes(), BAD)),
    };
    Ok(match print(&ad) {
        Ok(mut text) => {
            text.push(b'\n');
            (text, GOOD)
        }
        Err(refusal) => (report::refused(file, b"", &refusal).into_bytes(), BAD),
    })
}

/// The two ads of a pair, or the lines of what is refused, the first's before the second's.
fn pair_of(first: &str, second: &str) -> Result<Result<(Ad, Ad), String>, String> {
    if first == "-" && second == "-" {
        return Err(USAGE.to_string());
    }
    Ok(match (ad_of(first)?, ad_of(second)?) {
        (Ok(first), Ok(second)) => Ok((first, second)),
        (first, second) => Err(first.err().unwrap_or_default() + &second.err().unwrap_or_default()),
    })
}

fn match_command(first: &str, second: &str, budget: &str) -> Answer {
    let budget = budget_of(budget)?;
    let (first, second) = match pair_of(first, second)? {
        Ok(ads) => ads,
        Err(lines) => return Ok((lines.into_bytes(), BAD)),
    };
    let result = match_ads(&first, &second, budget)
        .map_err(|refusal| format!("reference: a text that was read is refused: {refusal:?}\n"))?;
    let matched = result.verdict.is_some_and(|verdict| verdict.matched);
    let status = if matched { GOOD } else { BAD };
    Ok((report::matched(&result).into_bytes(), status))
}

fn graph_command(first: &str, second: &str) -> Answer {
    Ok(match pair_of(first, second)? {
        Ok((first, second)) => (graphviz(&first, &second).into_bytes(), GOOD),
        Err(lines) => (lines.into_bytes(), BAD),
    })
}

/// 01: "Budgets are 16-bit numbers, 0 to 65,535." Digits alone, no sign.
fn budget_of(argument: &str) -> Result<u16, String> {
    if !argument.bytes().all(|byte| byte.is_ascii_digit()) {
        return Err(USAGE.to_string());
    }
    argument.parse().map_err(|_| USAGE.to_string())
}

fn generate_command(seed: &str, count: &str, directory: Option<&str>) -> Answer {
    let seed: u64 = seed.parse().map_err(|_| USAGE.to_string())?;
    let count: usize = count.parse().map_err(|_| USAGE.to_string())?;
    let mut coverage = Coverage::new();
    for (number, input) in Generator::new(seed).take(count).enumerate() {
        coverage.take(&input);
        if let Some(directory) = directory {
            write_files(Path::new(directory), number, &input.body)
                .map_err(|fault| format!("reference: cannot write to {directory}: {fault}\n"))?;
        }
    }
    Ok((coverage.to_string().into_bytes(), GOOD))
}

/// A text as `N.ad`; a pair as `N.first`, `N.second` and `N.budgets`. Trees and sizes
/// of memory have no text.
fn write_files(directory: &Path, number: usize, body: &Body) -> io::Result<()> {
    let file = |ending: &str| directory.join(format!("{number}.{ending}"));
    match body {
        Body::Text(text) => fs::write(file("ad"), text),
        Body::Pair(first, second) => {
            fs::write(file("first"), first)?;
            fs::write(file("second"), second)?;
            fs::write(file("budgets"), budget_lines(first, second))
        }
        Body::Tree(_) | Body::Rooms(..) => Ok(()),
    }
}

/// One budget a line; none where a text is refused.
fn budget_lines(first: &[u8], second: &[u8]) -> String {
    let (Ok(first), Ok(second)) = (read(first), read(second)) else {
        return String::new();
    };
    let length = Pair::new(&first, &second).evaluation_order().len();
    budgets(length)
        .iter()
        .map(|budget| format!("{budget}\n"))
        .collect()
}
