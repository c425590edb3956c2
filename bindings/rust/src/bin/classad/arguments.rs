//! The command line.

use classad::bounds::DEFAULT_BUDGET;
use std::ffi::{OsStr, OsString};

/// What the command line asks for.
pub enum Command {
    Help,
    Version,
    Check(Vec<OsString>),
    Print(OsString),
    Match(Pair),
    Trace(Pair),
    Graph([OsString; 2]),
}

/// The two files of a match and its budget.
pub struct Pair {
    pub files: [OsString; 2],
    pub budget: u16,
}

/// None where the command line is wrong. Arguments are bytes and need not be UTF-8.
pub fn command(arguments: &[OsString]) -> Option<Command> {
    let (name, rest) = arguments.split_first()?;
    match (name.as_encoded_bytes(), rest) {
        (b"help" | b"--help" | b"-h", []) => Some(Command::Help),
        (b"--version", []) => Some(Command::Version),
        (b"check", [_, ..]) if one_input(rest) => Some(Command::Check(rest.to_vec())),
        (b"print", [file]) => Some(Command::Print(file.clone())),
        (b"match", _) => pair(rest).map(Command::Match),
        (b"trace", _) => pair(rest).map(Command::Trace),
        (b"graph", _) => two_files(rest).map(Command::Graph),
        _ => None,
    }
}

/// Whether a file is standard input.
pub fn is_input(file: &OsStr) -> bool {
    file == "-"
}

/// Standard input can be read once only.
fn one_input(files: &[OsString]) -> bool {
    files.iter().filter(|file| is_input(file)).count() <= 1
}

fn pair(arguments: &[OsString]) -> Option<Pair> {
    let (files, budget) = match arguments {
        [files @ .., budget] if files.len() == 2 => (files, budget_of(budget.as_encoded_bytes())?),
        _ => (arguments, DEFAULT_BUDGET),
    };
    let files = two_files(files)?;
    Some(Pair { files, budget })
}

fn two_files(arguments: &[OsString]) -> Option<[OsString; 2]> {
    let files: &[OsString; 2] = arguments.try_into().ok()?;
    Some(files.clone()).filter(|files| one_input(files))
}

/// Digits alone, as many as one likes, for a number from 0 to 65,535.
fn budget_of(argument: &[u8]) -> Option<u16> {
    if argument.is_empty() {
        return None;
    }
    argument.iter().try_fold(0_u16, |value, &byte| {
        let digit = char::from(byte).to_digit(10)?;
        value.checked_mul(10)?.checked_add(digit as u16)
    })
}
