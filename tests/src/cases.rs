//! Which cases a run makes, and which one it is at.

use reference::rng::Rng;
use std::fs::{self, File};
use std::os::unix::fs::FileExt;
use std::path::{Path, PathBuf};

/// Names the folder in which `tests/run` finds the last case of each run that did not end well.
const LAST_CASES: &str = "LAST_CASES";

pub struct Cases {
    pub name: &'static str,
    pub seed: u64,
    from: u64,
    pub count: u64,
}

impl Cases {
    pub fn new(name: &'static str, seed: u64, from: u64, count: u64) -> Cases {
        Cases {
            name,
            seed,
            from,
            count,
        }
    }

    /// SEED COUNT [FROM]
    pub fn of(name: &'static str, words: &[String]) -> Option<Cases> {
        let number = |at: usize| words.get(at)?.parse::<u64>().ok();
        let from = if words.len() < 3 { 0 } else { number(2)? };
        let (seed, count) = (number(0)?, number(1)?);
        from.checked_add(count)?;
        (words.len() <= 3).then_some(Cases::new(name, seed, from, count))
    }

    /// The index of each case, with its own generator of numbers.
    pub fn each(&self) -> impl Iterator<Item = (u64, Rng)> + '_ {
        let last = self.last_case().and_then(|path| File::create(path).ok());
        (self.from..self.from + self.count).map(move |index| {
            if let Some(file) = &last {
                self.keep(file, index);
            }
            let start = Rng::new(self.seed).bits() ^ Rng::new(!index).bits();
            (index, Rng::new(start))
        })
    }

    /// The run ended, so that its last case is not the one to repeat.
    pub fn ended(&self) {
        if let Some(path) = self.last_case() {
            fs::remove_file(path).ok();
        }
    }

    fn last_case(&self) -> Option<PathBuf> {
        std::env::var_os(LAST_CASES).map(|folder| Path::new(&folder).join(self.name))
    }

    /// The command that repeats a case, kept before it begins: a fault in a library may end
    /// this program at once.
    fn keep(&self, file: &File, index: u64) {
        let line = format!("{:<79}\n", replay(self.name, self.seed, index));
        file.write_all_at(line.as_bytes(), 0)
            .expect("the last case is kept");
    }
}

pub fn replay(name: &str, seed: u64, index: u64) -> String {
    format!("tests/run {name} {seed} 1 {index}")
}
