//! The command `classad`. docs/COMMANDS.md gives its output and its exit status.

mod arguments;
mod graph;
mod input;
mod lines;

use arguments::{Command, Pair};
use classad::{Ad, Match};
use input::text_of;
use std::ffi::{OsStr, OsString};
use std::io::{self, BufWriter, Write};
use std::process::ExitCode;

/// The exit status; of several the largest counts.
#[derive(Clone, Copy, PartialEq, Eq, PartialOrd, Ord)]
enum Status {
    /// Accepted, printed, matched or drawn; help and version.
    Good = 0,
    /// Refused, unmatched or not done.
    Bad = 1,
    /// A wrong command line, or something that cannot be read or written.
    Fault = 2,
}

/// Why a command goes no further.
enum Stop {
    /// Lines for standard output.
    Refused(Vec<u8>),
    /// Lines for standard error.
    Unreadable(Vec<u8>),
    /// Standard output cannot be written.
    Unwritable(io::Error),
}

impl From<io::Error> for Stop {
    fn from(fault: io::Error) -> Stop {
        Stop::Unwritable(fault)
    }
}

fn main() -> ExitCode {
    let given: Vec<OsString> = std::env::args_os().skip(1).collect();
    let Some(command) = arguments::command(&given) else {
        complain(lines::USAGE.as_bytes());
        return ExitCode::from(Status::Fault as u8);
    };
    let mut output = BufWriter::new(io::stdout().lock());
    let done = run(&command, &mut output);
    let done = settle(done, &mut output).and_then(|status| output.flush().map(|()| status));
    let status = done.unwrap_or_else(|fault| {
        complain(&lines::fault(OsStr::new("standard output"), &fault));
        Status::Fault
    });
    ExitCode::from(status as u8)
}

/// Where standard error cannot be written, the exit status alone tells of it.
fn complain(lines: &[u8]) {
    let _ = io::stderr().write_all(lines);
}

fn run(command: &Command, output: &mut impl Write) -> Result<Status, Stop> {
    match command {
        Command::Help => say(lines::USAGE, output),
        Command::Version => say(lines::VERSION, output),
        Command::Check(files) => check(files, output),
        Command::Print(file) => print(file, output),
        Command::Match(pair) => match_pair(pair, false, output),
        Command::Trace(pair) => match_pair(pair, true, output),
        Command::Graph(files) => draw(files, output),
    }
}

fn say(text: &str, output: &mut impl Write) -> Result<Status, Stop> {
    output.write_all(text.as_bytes())?;
    Ok(Status::Good)
}

/// Says why a command went no further, and gives its status.
fn settle(done: Result<Status, Stop>, output: &mut impl Write) -> io::Result<Status> {
    match done {
        Ok(status) => Ok(status),
        Err(Stop::Refused(lines)) => {
            output.write_all(&lines)?;
            Ok(Status::Bad)
        }
        Err(Stop::Unreadable(lines)) => {
            // On a terminal the lines before come first.
            output.flush()?;
            complain(&lines);
            Ok(Status::Fault)
        }
        Err(Stop::Unwritable(fault)) => Err(fault),
    }
}

/// Goes on to the last file, whatever comes of those before.
fn check(files: &[OsString], output: &mut impl Write) -> Result<Status, Stop> {
    files.iter().try_fold(Status::Good, |largest, file| {
        let done = check_file(file, output);
        Ok(largest.max(settle(done, output)?))
    })
}

fn check_file(file: &OsStr, output: &mut impl Write) -> Result<Status, Stop> {
    let ad = ad_of(file)?;
    output.write_all(&lines::accepted(file, &ad))?;
    Ok(Status::Good)
}

fn print(file: &OsStr, output: &mut impl Write) -> Result<Status, Stop> {
    let text = ad_of(file)?
        .print()
        .map_err(|refusal| Stop::Refused(lines::refused(file, b"", &refusal)))?;
    writeln!(output, "{text}")?;
    Ok(Status::Good)
}

fn match_pair(pair: &Pair, traced: bool, output: &mut impl Write) -> Result<Status, Stop> {
    let [first, second] = ads_of(&pair.files)?;
    let matching = Match::with_budget(&first, &second, pair.budget);
    if traced {
        trace(&matching, output)?;
    }
    output.write_all(lines::outcome(&matching).as_bytes())?;
    Ok(if matching.is_matched() {
        Status::Good
    } else {
        Status::Bad
    })
}

fn trace(matching: &Match, output: &mut impl Write) -> io::Result<()> {
    let mut entries = (1..).zip(matching.list());
    entries.try_for_each(|(number, &entry)| {
        output.write_all(lines::traced(matching, number, entry).as_bytes())
    })
}

fn draw(files: &[OsString; 2], output: &mut impl Write) -> Result<Status, Stop> {
    let [first, second] = ads_of(files)?;
    output.write_all(graph::graph([&first, &second]).as_bytes())?;
    Ok(Status::Good)
}

fn ad_of(file: &OsStr) -> Result<Ad, Stop> {
    let text = text_of(file).map_err(Stop::Unreadable)?;
    ad_in(file, &text).map_err(Stop::Refused)
}

/// Both files are read before either is judged: one that cannot be read is told alone.
fn ads_of([first, second]: &[OsString; 2]) -> Result<[Ad; 2], Stop> {
    let texts = both(text_of(first), text_of(second)).map_err(Stop::Unreadable)?;
    both(ad_in(first, &texts[0]), ad_in(second, &texts[1])).map_err(Stop::Refused)
}

/// The ad of a file's text, or the lines of its refusal.
fn ad_in(file: &OsStr, text: &[u8]) -> Result<Ad, Vec<u8>> {
    Ad::read(text).map_err(|refusal| lines::refused(file, text, &refusal))
}

/// Both, or the lines of what failed, the first's before the second's.
fn both<T>(first: Result<T, Vec<u8>>, second: Result<T, Vec<u8>>) -> Result<[T; 2], Vec<u8>> {
    match (first, second) {
        (Ok(first), Ok(second)) => Ok([first, second]),
        (first, second) => {
            let lines = [first, second].map(|it| it.err().unwrap_or_default());
            Err(lines.concat())
        }
    }
}
