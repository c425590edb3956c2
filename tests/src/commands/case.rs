//! A command, its files and its budget.

use super::{names, refused, untrue};
use crate::pairs::Pair;
use crate::reading::draw::{text_of, Texts};
use crate::report::plain;
use crate::stored::Samples;
use reference::generate::{budgets, damage, loops, matches};
use reference::graph;
use reference::read::read;
use reference::rng::Rng;
use std::fs;
use std::path::Path;

#[derive(Clone, Copy, PartialEq, Eq)]
pub enum Command {
    Check,
    Print,
    Match,
    Trace,
    Graph,
}

/// Their words, in order.
pub const COMMANDS: [&str; 5] = ["check", "print", "match", "trace", "graph"];

/// How much of a text is shown.
const SHOWN: usize = 400;

/// Names of the files; `-` is standard input, at most once.
const NAMES: [&str; 3] = ["first.ad", "second ad", "-"];

#[derive(Clone)]
pub struct Case {
    pub command: Command,
    pub names: Vec<&'static str>,
    pub texts: Vec<Vec<u8>>,
    pub budget: Option<String>,
}

impl Case {
    pub fn draw(rng: &mut Rng, texts: &Texts, stored: &Samples) -> Case {
        let command = match rng.below(20) {
            0..=4 => Command::Check,
            5..=7 => Command::Print,
            8..=11 => Command::Match,
            12..=15 => Command::Trace,
            _ => Command::Graph,
        };
        let texts = match command {
            Command::Check => {
                let count = rng.between(1, NAMES.len());
                (0..count).map(|_| any_text(rng, texts)).collect()
            }
            Command::Print => vec![one_text(rng, texts, stored)],
            Command::Match | Command::Trace => pair(rng, stored),
            Command::Graph => pair_to_draw(rng, stored),
        };
        let names = file_names(rng, texts.len());
        let takes_budget = matches!(command, Command::Match | Command::Trace);
        let budget = if takes_budget {
            budget(rng, &texts)
        } else {
            None
        };
        Case {
            command,
            names,
            texts,
            budget,
        }
    }

    pub fn arguments(&self) -> Vec<String> {
        let names = self.names.iter().map(|name| name.to_string());
        names.chain(self.budget.clone()).collect()
    }

    pub fn input(&self) -> Option<&[u8]> {
        let at = self.names.iter().position(|name| *name == "-")?;
        Some(&self.texts[at])
    }

    /// The number of a budget that is digits; without one it is the largest.
    pub fn budget_number(&self) -> u16 {
        let digits = self.budget.as_deref().unwrap_or("65535");
        digits.parse().expect("a budget")
    }

    pub fn write(&self, folder: &Path) {
        for (name, text) in self.names.iter().zip(&self.texts) {
            if *name != "-" {
                fs::write(folder.join(name), text).expect("a file is written");
            }
        }
    }

    pub fn show(&self) -> String {
        let word = COMMANDS[self.command as usize];
        let mut lines = format!("command    {word} {}\n", self.arguments().join(" "));
        for (name, text) in self.names.iter().zip(&self.texts) {
            let shown = plain(text, SHOWN);
            lines += &format!("{name:<10} {} bytes: {shown}\n", text.len());
        }
        lines
    }
}

fn file_names(rng: &mut Rng, count: usize) -> Vec<&'static str> {
    let turn = rng.below(NAMES.len());
    let names = NAMES.iter().cycle().skip(turn);
    names.copied().take(count).collect()
}

/// Many at the bounds, where the rarer refusals are, and many refused for one cause.
fn any_text(rng: &mut Rng, texts: &Texts) -> Vec<u8> {
    match rng.below(10) {
        0..=2 => texts.edge(rng),
        3..=5 => refused::text(rng),
        _ => texts.draw(rng).text,
    }
}

/// A text of any kind, one whose print is too long, or that of an ad.
fn one_text(rng: &mut Rng, texts: &Texts, stored: &Samples) -> Vec<u8> {
    match rng.below(20) {
        0..=5 => any_text(rng, texts),
        6 => refused::long_print(rng),
        _ => {
            let (_, sample) = stored.draw(rng, 0);
            text_of(rng, &sample.ad)
        }
    }
}

/// Two ads' texts, many of them made for matching, now and then one that is refused.
fn pair(rng: &mut Rng, stored: &Samples) -> Vec<Vec<u8>> {
    let texts = match rng.below(20) {
        0..=1 => vec![reals(rng), reals(rng)],
        2..=8 => untrue::pair(rng),
        9..=13 => {
            let (first, second) = matches::match_pair(rng);
            vec![text_of(rng, &first), text_of(rng, &second)]
        }
        _ => stored_pair(rng, stored),
    };
    some_refused(rng, texts)
}

/// The same for a graph: names that are found, circular or absent.
fn pair_to_draw(rng: &mut Rng, stored: &Samples) -> Vec<Vec<u8>> {
    let texts = match rng.below(10) {
        0..=4 => names::pair(rng),
        5..=6 => {
            let (first, second) = loops::loop_pair(rng);
            vec![text_of(rng, &first), text_of(rng, &second)]
        }
        _ => stored_pair(rng, stored),
    };
    some_refused(rng, texts)
}

fn stored_pair(rng: &mut Rng, stored: &Samples) -> Vec<Vec<u8>> {
    let (_, pair) = Pair::draw(rng, stored);
    let each = pair.samples.iter().map(|sample| text_of(rng, &sample.ad));
    each.collect()
}

/// The texts, each of them at times damaged or another in its place.
fn some_refused(rng: &mut Rng, texts: Vec<Vec<u8>>) -> Vec<Vec<u8>> {
    let each = texts.into_iter().map(|text| match rng.below(100) {
        0..=5 => damage::damaged(rng, &text).1,
        6..=9 => refused::text(rng),
        _ => text,
    });
    each.collect()
}

/// An ad with Reals of every size, which a trace shows each in its own form.
fn reals(rng: &mut Rng) -> Vec<u8> {
    let count = rng.between(1, 6);
    let results: Vec<String> = (0..count).map(|_| product(rng)).collect();
    format!("[Requirements = {}]", results.join(" == ")).into_bytes()
}

fn product(rng: &mut Rng) -> String {
    let count = rng.between(1, 4);
    let operands: Vec<String> = (0..count).map(|_| real(rng)).collect();
    let operator = *rng.pick(&[" * ", " / ", " - "]);
    operands.join(operator)
}

/// At most 15 digits, many of them powers of ten.
fn real(rng: &mut Rng) -> String {
    let zeros = "0".repeat(rng.below(10));
    let digits = if rng.chance(50) {
        1
    } else {
        rng.below(100_000)
    };
    if rng.chance(50) {
        format!("{digits}{zeros}.0")
    } else {
        format!("0.{zeros}{digits}")
    }
}

/// None, or one about the list's length, at times with idle zeros.
fn budget(rng: &mut Rng, texts: &[Vec<u8>]) -> Option<String> {
    if rng.chance(60) {
        return None;
    }
    let length = match [read(&texts[0]), read(&texts[1])] {
        [Ok(first), Ok(second)] => graph::Pair::new(&first, &second).evaluation_order().len(),
        _ => 0,
    };
    let zeros = if rng.chance(10) { rng.below(9) } else { 0 };
    let number = *rng.pick(&budgets(length));
    Some("0".repeat(zeros) + &number.to_string())
}
