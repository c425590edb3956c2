//! What a run has compared, counted in tables, and the first differences.

use crate::cases::{replay, Cases};
use std::fmt::{Display, Write};

/// How many differences of one row are shown.
const SHOWN: usize = 3;

/// Counts by row and column.
pub struct Table {
    pub title: &'static str,
    rows: Vec<&'static str>,
    columns: Vec<&'static str>,
    counts: Vec<u64>,
}

impl Table {
    pub fn new(title: &'static str, rows: &[&'static str], columns: &[&'static str]) -> Table {
        Table {
            title,
            rows: rows.to_vec(),
            columns: columns.to_vec(),
            counts: vec![0; rows.len() * columns.len()],
        }
    }

    pub fn add(&mut self, row: usize, column: usize) {
        self.counts[row * self.columns.len() + column] += 1;
    }

    fn row(&self, row: usize) -> &[u64] {
        let width = self.columns.len();
        &self.counts[row * width..(row + 1) * width]
    }

    /// The rows in which nothing was counted.
    fn empty_rows(&self) -> Vec<&'static str> {
        let rows = self.rows.iter().enumerate();
        let empty = rows.filter(|(row, _)| self.row(*row).iter().all(|&count| count == 0));
        empty.map(|(_, name)| *name).collect()
    }

    fn text(&self) -> String {
        let longest = self.rows.iter().map(|name| name.len()).max().unwrap_or(0);
        let (width, title_width) = (longest.max(20), longest.max(20) + 2);
        let head = cells(&self.columns, "all");
        let mut text = format!("{:<title_width$}{head}\n", self.title);
        for (row, name) in self.rows.iter().enumerate() {
            let counts = self.row(row);
            let all = counts.iter().sum::<u64>();
            writeln!(text, "  {name:<width$}{}", cells(counts, all)).unwrap();
        }
        text
    }
}

fn cells(cells: &[impl Display], last: impl Display) -> String {
    let cells = cells.iter().map(|cell| format!(" {cell:>9}"));
    cells.collect::<String>() + &format!(" {last:>9}")
}

/// A run's result.
pub struct Report {
    name: &'static str,
    seed: u64,
    pub tables: Vec<Table>,
    compared: u64,
    different: u64,
    /// For each row of the first table, how many differences it had.
    by_row: Vec<usize>,
    /// How many things that had to come up did not.
    gaps: usize,
    shown: String,
}

impl Report {
    /// The first table has a row for each thing compared, the columns being its answers.
    pub fn new(cases: &Cases, tables: Vec<Table>) -> Report {
        let by_row = vec![0; tables[0].rows.len()];
        Report {
            name: cases.name,
            seed: cases.seed,
            tables,
            compared: 0,
            different: 0,
            by_row,
            gaps: 0,
            shown: String::new(),
        }
    }

    /// One comparison: counts it, and keeps what `describe` says if the two differ.
    pub fn compare(
        &mut self,
        index: u64,
        row: usize,
        answer: usize,
        same: bool,
        describe: impl FnOnce() -> String,
    ) {
        self.compared += 1;
        self.tables[0].add(row, answer);
        if same {
            return;
        }
        self.different += 1;
        self.by_row[row] += 1;
        if self.by_row[row] <= SHOWN {
            let (name, seed, what) = (self.name, self.seed, self.tables[0].rows[row]);
            writeln!(
                self.shown,
                "difference in {what}, case {index} of seed {seed}"
            )
            .unwrap();
            for line in describe().lines() {
                writeln!(self.shown, "  {line}").unwrap();
            }
            writeln!(self.shown, "  again: {}", replay(name, seed, index)).unwrap();
        }
    }

    /// A line of its own.
    pub fn note(&mut self, line: &str) {
        writeln!(self.shown, "{line}").unwrap();
    }

    /// Every row of this table must have come up: a line for each that did not.
    pub fn require_rows(&mut self, table: usize) {
        let title = self.tables[table].title;
        for row in self.tables[table].empty_rows() {
            self.gaps += 1;
            self.note(&format!("{title}: {row} never came up"));
        }
    }

    /// A run that compared nothing, or not all that it must, is not good either.
    pub fn good(&self) -> bool {
        self.compared > 0 && self.different == 0 && self.gaps == 0
    }

    pub fn text(&self) -> String {
        let mut text: String = self.tables.iter().map(Table::text).collect();
        text.push_str(&self.shown);
        for (row, count) in self.by_row.iter().enumerate() {
            if *count > 0 {
                let what = self.tables[0].rows[row];
                writeln!(text, "{count} differences in {what}").unwrap();
            }
        }
        writeln!(
            text,
            "{} of seed {}: {} compared, {} differences",
            self.name, self.seed, self.compared, self.different
        )
        .unwrap();
        text
    }
}

/// A line for the first place in which memory differs.
pub fn first_difference<T: PartialEq + std::fmt::Debug>(
    name: &str,
    got: &[T],
    expected: &[T],
) -> String {
    match (0..got.len()).find(|&at| got[at] != expected[at]) {
        None => String::new(),
        Some(at) => format!(
            "{name} {at}: library {:?}, reference {:?}\n",
            got[at], expected[at]
        ),
    }
}

/// Bytes for a reader, at most so many: those that are no printable ASCII as `\xNN`.
pub fn plain(bytes: &[u8], most: usize) -> String {
    let shown = bytes.iter().take(most).map(|&byte| match byte {
        0x20..=0x7E => char::from(byte).to_string(),
        _ => format!("\\x{byte:02x}"),
    });
    let more = if bytes.len() > most { ".." } else { "" };
    shown.collect::<String>() + more
}
