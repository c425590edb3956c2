//! A stored ad, perhaps damaged: an ad's memory in which some words or bytes are changed.

use crate::decode;
use crate::layout::Stored;
use crate::report::plain;
use reference::check::check;
use reference::print::printed_text;
use reference::tree::Ad;
use std::fmt::Write;

/// How much of an ad's text and how many changes are shown.
const TEXT_SHOWN: usize = 400;
const CHANGES_SHOWN: usize = 12;

#[derive(Clone, Copy, Debug, PartialEq, Eq)]
pub enum Change {
    Word { at: usize, value: u64 },
    Byte { at: usize, value: u8 },
}

/// Where memory has become another, and what.
fn changed<'a, T: Copy + PartialEq>(
    before: &'a [T],
    after: &'a [T],
) -> impl Iterator<Item = (usize, T)> + 'a {
    let all = after.iter().copied().enumerate();
    all.filter(|(at, value)| *value != before[*at])
}

/// The ad need not be well formed, but has room in memory.
#[derive(Clone)]
pub struct Sample {
    pub ad: Ad,
    pub changes: Vec<Change>,
}

impl Sample {
    pub fn of(ad: Ad) -> Sample {
        let changes = Vec::new();
        Sample { ad, changes }
    }

    /// An ad whose memory has become this.
    pub fn damaged(ad: Ad, memory: &Stored) -> Sample {
        let before = Stored::of(&ad);
        let words = changed(&before.words, &memory.words);
        let words = words.map(|(at, value)| Change::Word { at, value });
        let bytes = changed(&before.bytes, &memory.bytes);
        let bytes = bytes.map(|(at, value)| Change::Byte { at, value });
        let changes = words.chain(bytes).collect();
        Sample { ad, changes }
    }

    pub fn memory(&self) -> Stored {
        let mut memory = Stored::of(&self.ad);
        for change in &self.changes {
            match *change {
                Change::Word { at, value } => memory.words[at] = value,
                Change::Byte { at, value } => memory.bytes[at] = value,
            }
        }
        memory
    }

    /// The tree that the memory holds, if it is well formed.
    pub fn tree(&self) -> Option<Ad> {
        if self.changes.is_empty() {
            check(&self.ad).is_ok().then(|| self.ad.clone())
        } else {
            decode::well_formed(&self.memory())
        }
    }

    pub fn show(&self) -> String {
        let mut lines = plain(&printed_text(&self.ad), TEXT_SHOWN) + "\n";
        let before = Stored::of(&self.ad);
        for change in self.changes.iter().take(CHANGES_SHOWN) {
            match *change {
                Change::Word { at, value } => {
                    let old = before.words[at];
                    writeln!(lines, "  word {at} changed from {old} to {value}").unwrap();
                }
                Change::Byte { at, value } => {
                    let old = before.bytes[at];
                    writeln!(lines, "  byte {at} changed from {old} to {value}").unwrap();
                }
            }
        }
        if self.changes.len() > CHANGES_SHOWN {
            let more = self.changes.len() - CHANGES_SHOWN;
            writeln!(lines, "  and {more} more changes").unwrap();
        }
        lines
    }
}
