//! The lines of the tables of times: medians, their ratios and how these spread.

use crate::clock::{median, percentile, rounds, Round, Timed};
use crate::markdown::{self, microseconds, ratio};

/// What the spread leaves out at either end.
const LOW: f64 = 0.1;
const HIGH: f64 = 0.9;

/// A table: its title, what the calls do to memory, and its lines. `facts` head the name of a
/// text, ad or pair and what is told of it; `others` are the programs beside the library.
pub struct Table {
    title: &'static str,
    memory: &'static str,
    facts: Vec<&'static str>,
    others: Vec<&'static str>,
    lines: Vec<Line>,
}

/// One text, ad or pair, with the times of the library, of the others, and of the library
/// again in each round.
struct Line {
    name: String,
    facts: Vec<String>,
    times: Vec<Round>,
}

impl Table {
    pub fn new(
        title: &'static str,
        memory: &'static str,
        facts: &[&'static str],
        others: &[&'static str],
    ) -> Table {
        Table {
            title,
            memory,
            facts: facts.to_vec(),
            others: others.to_vec(),
            lines: Vec::new(),
        }
    }

    /// Takes the rounds of another pass over the same lines to those of this one.
    pub fn pool(&mut self, more: Table) {
        for (line, other) in self.lines.iter_mut().zip(more.lines) {
            line.times.extend(other.times);
        }
    }

    /// Times a line: the library's call twice and each other's once in each round.
    pub fn add(&mut self, name: &str, facts: &[String], count: usize, calls: Vec<Timed>) {
        assert_eq!(calls.len(), self.others.len() + 2, "calls of {name}");
        self.lines.push(Line {
            name: name.to_string(),
            facts: facts.to_vec(),
            times: rounds(count, calls),
        });
    }

    pub fn text(&self) -> String {
        let mut heads = [&self.facts[..], &["library"]].concat();
        for other in &self.others {
            heads.extend([other, "ratio", "spread"]);
        }
        heads.push("itself");
        let rows: Vec<Vec<String>> = self.lines.iter().map(Line::cells).collect();
        let table = markdown::table(&heads, &rows);
        format!("{}; memory: {}\n\n{table}\n", self.title, self.memory)
    }

    /// For each line the median of the library against itself, and its spread.
    pub fn noise(&self) -> Vec<[f64; 3]> {
        self.lines.iter().map(Line::noise).collect()
    }
}

impl Line {
    fn cells(&self) -> Vec<String> {
        let mut cells = vec![self.name.clone()];
        cells.extend(self.facts.iter().cloned());
        cells.push(microseconds(median(&self.times, |round| round[0])));
        for other in 1..self.again() {
            let [middle, low, high] = spread(&self.times, |round| round[0] / round[other]);
            cells.extend([
                microseconds(median(&self.times, |round| round[other])),
                ratio(middle),
                between(low, high),
            ]);
        }
        let [_, low, high] = self.noise();
        cells.push(between(low, high));
        cells
    }

    /// Where the library's second time stands.
    fn again(&self) -> usize {
        self.times[0].len() - 1
    }

    fn noise(&self) -> [f64; 3] {
        let again = self.again();
        spread(&self.times, |round| round[0] / round[again])
    }
}

fn between(low: f64, high: f64) -> String {
    format!("{} to {}", ratio(low), ratio(high))
}

/// The median, the 10th and the 90th percentile.
fn spread(times: &[Round], asked: impl Fn(&Round) -> f64) -> [f64; 3] {
    [0.5, LOW, HIGH].map(|part| percentile(times, part, &asked))
}
