//! The lines that the command prints; docs/COMMANDS.md says the same in words.

use crate::matching::Match;
use crate::phrase::phrase;
use crate::refusal::Refusal;
use crate::show;
use crate::tree::Ad;
use crate::value::Value;

/// What the sides are called.
pub const SIDES: [&str; 2] = ["first", "second"];

/// `FILE: accepted, D definitions, N nodes`
pub fn accepted(file: &str, ad: &Ad) -> String {
    let definitions = ad.definitions.len();
    let nodes = ad.node_count();
    format!("{file}: accepted, {definitions} definitions, {nodes} nodes\n")
}

/// `FILE: refused N at P (line L, column C): phrase`, the line, and a caret below the
/// place; for a refusal whose place is 0 by rule, `FILE: refused N at 0: phrase`.
pub fn refused(file: &str, text: &[u8], refusal: &Refusal) -> String {
    let number = refusal.number();
    let place = refusal.place;
    let phrase = phrase(text, refusal);
    if !refusal.has_place() {
        return format!("{file}: refused {number} at {place}: {phrase}\n");
    }
    let (line, column) = line_and_column(text, place);
    let shown = shown_line(text, place);
    let margin = " ".repeat(column - 1);
    format!(
        "{file}: refused {number} at {place} (line {line}, column {column}): {phrase}\n\
         {shown}\n{margin}^\n"
    )
}

/// Both count from 1; the column counts bytes; LF ends a line.
pub fn line_and_column(text: &[u8], place: usize) -> (usize, usize) {
    let line = 1 + text[..place].iter().filter(|&&byte| byte == b'\n').count();
    (line, place - line_start(text, place) + 1)
}

fn line_start(text: &[u8], place: usize) -> usize {
    let before = text[..place].iter().rposition(|&byte| byte == b'\n');
    before.map_or(0, |line_feed| line_feed + 1)
}

/// The line around the place, a tab as one blank, other bytes outside 0x20 to 0x7E as
/// `?`, so that every byte takes one column.
fn shown_line(text: &[u8], place: usize) -> String {
    let line = &text[line_start(text, place)..];
    let end = line.iter().position(|&byte| byte == b'\n');
    let line = &line[..end.unwrap_or(line.len())];
    line.iter().map(|&byte| shown_byte(byte)).collect()
}

fn shown_byte(byte: u8) -> char {
    match byte {
        b'\t' => ' ',
        0x20..=0x7E => char::from(byte),
        _ => '?',
    }
}

/// `matched`, `unmatched` or `not done`; where unmatched the reasons; where finished the
/// two ranks; the steps.
pub fn matched(result: &Match) -> String {
    let steps = format!("steps {} of {}\n", result.steps, result.order.len());
    let Some(verdict) = result.verdict else {
        return format!("not done\n{steps}");
    };
    let word = if verdict.matched {
        "matched"
    } else {
        "unmatched"
    };
    let reasons = untrue(0, result) + &untrue(1, result);
    let (first, second) = (verdict.first_rank, verdict.second_rank);
    format!("{word}\n{reasons}first rank {first}\nsecond rank {second}\n{steps}")
}

/// The line of a side whose Requirements is not true; none where it is.
fn untrue(side: usize, result: &Match) -> String {
    let name = SIDES[side];
    match result.requirements(side) {
        Some(Value::Boolean(true)) => String::new(),
        Some(value) => format!("{name} Requirements is {}\n", show::value(value)),
        None => format!("{name} ad has no Requirements\n"),
    }
}
