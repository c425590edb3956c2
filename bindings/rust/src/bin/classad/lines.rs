//! The lines of the command. docs/COMMANDS.md gives each byte of them; file names are bytes.

use classad::{Ad, Entry, Match, Place, Refusal, Side, Value};
use std::ffi::OsStr;
use std::io;

pub const USAGE: &str = "\
usage: classad check FILE..
       classad print FILE
       classad match FIRST SECOND [BUDGET]
       classad trace FIRST SECOND [BUDGET]
       classad graph FIRST SECOND
       classad help
       classad --version
FILE, FIRST and SECOND may be - for standard input, at most once.
BUDGET is digits, 0 to 65535; without it the budget is 65535.
";

/// The program's version, and the kit that its library was proved and built with.
pub const VERSION: &str = concat!(
    "classad ",
    env!("CARGO_PKG_VERSION"),
    "\nkit ",
    env!("CLASSAD_KIT"),
    "\n"
);

/// `FILE: accepted, D definitions, N nodes`
pub fn accepted(file: &OsStr, ad: &Ad) -> Vec<u8> {
    let (definitions, nodes) = (ad.definition_count(), ad.node_count());
    about(
        file,
        &format!("accepted, {definitions} definitions, {nodes} nodes\n"),
    )
}

/// One line where the place is 0 by rule; otherwise three, the last of which has a caret
/// below the place.
pub fn refused(file: &OsStr, text: &[u8], refusal: &Refusal) -> Vec<u8> {
    let mut lines = format!("{refusal}\n");
    if let Some(Place { byte, column, .. }) = refusal.place() {
        let shown = shown_line(&text[byte - (column - 1)..]);
        let margin = " ".repeat(column - 1);
        lines += &format!("{shown}\n{margin}^\n");
    }
    about(file, &lines)
}

/// The text's first line, in which each byte takes one column.
fn shown_line(text: &[u8]) -> String {
    let line = text.split(|&byte| byte == b'\n').next();
    let shown = line.unwrap_or_default().iter().map(|&byte| match byte {
        b'\t' => ' ',
        0x20..=0x7E => char::from(byte),
        _ => '?',
    });
    shown.collect()
}

/// `classad: FILE: REASON`, for standard error. The number that the standard library puts
/// behind the reason is left out.
pub fn fault(file: &OsStr, fault: &io::Error) -> Vec<u8> {
    let said = fault.to_string();
    let reason = said.split(" (os error").next().unwrap_or_default();
    let mut line = b"classad: ".to_vec();
    line.extend(about(file, &format!("{reason}\n")));
    line
}

/// The verdict, each Requirements that is not true, the ranks and the steps; or that the match
/// is not done.
pub fn outcome(it: &Match) -> String {
    let steps = format!("steps {} of {}\n", it.steps(), it.list().len());
    let (Some(matched), Some((first, second))) = (it.verdict(), it.ranks()) else {
        return format!("not done\n{steps}");
    };
    let word = if matched { "matched" } else { "unmatched" };
    let untrue = untrue(it, Side::First) + &untrue(it, Side::Second);
    format!("{word}\n{untrue}first rank {first}\nsecond rank {second}\n{steps}")
}

/// That the Requirements of an ad are not true; nothing where they are.
fn untrue(it: &Match, side: Side) -> String {
    match it.requirements(side) {
        Some(Value::Boolean(true)) => String::new(),
        Some(value) => format!("{side} Requirements is {value}\n"),
        None => format!("{side} ad has no Requirements\n"),
    }
}

/// `K SIDE NAME: EXPRESSION -> VALUE`, for entry K of the list.
pub fn traced(it: &Match, number: usize, entry: Entry) -> String {
    let Entry { side, node } = entry;
    let ad = it.ad(side);
    let definition = ad.definition_of(node).expect("an entry has a definition");
    let name = definition.name;
    let expression = match ad.expression(node) {
        Ok(text) => text.expect("an entry has an expression"),
        Err(refusal) => format!("({})", refusal.phrase()),
    };
    let value = match it.value(side, node) {
        Some(value) => value.to_string(),
        None => "blank".to_string(),
    };
    format!("{number} {side} {name}: {expression} -> {value}\n")
}

/// `FILE: `, then what is said of it.
fn about(file: &OsStr, said: &str) -> Vec<u8> {
    [file.as_encoded_bytes(), b": ", said.as_bytes()].concat()
}
