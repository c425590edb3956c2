//! One call of a match: two ads in memory, table and list, and a budget.

use crate::memory::{noise_words, size};
use crate::pairs::Pair;
use crate::sample::Sample;
use reference::bounds;
use reference::rng::Rng;
use reference::tree::Ad;

pub const TABLE: usize = 2 * bounds::SLOTS;
pub const LIST: usize = bounds::SLOTS;

/// Budgets beside the list's length.
pub const BUDGETS: [&str; 8] = [
    "0",
    "1",
    "one less",
    "exact",
    "one more",
    "any up to the length",
    "any",
    "65,535",
];

#[derive(Clone, Copy)]
pub struct Budget {
    pub kind: usize,
    draw: usize,
}

impl Budget {
    fn draw(rng: &mut Rng) -> Budget {
        let kind = match rng.below(16) {
            kind if kind < BUDGETS.len() => kind,
            8..=10 => 3,
            11..=12 => 5,
            _ => 7,
        };
        let draw = rng.below(65_536);
        Budget { kind, draw }
    }

    pub fn of(&self, length: usize) -> u16 {
        let budget = match self.kind {
            0 => 0,
            1 => 1,
            2 => length.saturating_sub(1),
            3 => length,
            4 => length + 1,
            5 => self.draw % (length + 1),
            6 => self.draw,
            _ => 65_535,
        };
        budget as u16
    }
}

/// Two ads in memory, the sizes of table and list, the seed of their noise, and a budget.
#[derive(Clone)]
pub struct Call {
    pub pair: Pair,
    pub table: usize,
    pub list: usize,
    noise: u64,
    pub budget: Budget,
}

impl Call {
    pub fn draw(rng: &mut Rng, pair: Pair) -> Call {
        let short = rng.below(100);
        Call {
            pair,
            table: size(rng, TABLE, short <= 1),
            list: size(rng, LIST, short == 1 || short == 2),
            noise: rng.bits(),
            budget: Budget::draw(rng),
        }
    }

    pub fn exchanged(&self) -> Call {
        let pair = self.pair.exchanged();
        Call {
            pair,
            ..self.clone()
        }
    }

    /// The same call of other ads.
    pub fn with(&self, samples: &[Sample; 2]) -> Call {
        let pair = self.pair.with(samples);
        Call {
            pair,
            ..self.clone()
        }
    }

    pub fn trees(&self) -> Result<[Ad; 2], u64> {
        self.pair.trees(self.table >= TABLE && self.list >= LIST)
    }

    /// Table and list before the call.
    pub fn rooms(&self) -> [Vec<u64>; 2] {
        [
            noise_words(self.noise, self.table),
            noise_words(!self.noise, self.list),
        ]
    }
}
