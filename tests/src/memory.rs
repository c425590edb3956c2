//! Lent memory before a call: its sizes, and the noise that it holds.

use crate::layout::{self, Stored};
use crate::sample::Sample;
use reference::rng::Rng;
use reference::tree::Ad;

/// The same words for the same seed.
pub fn noise_words(seed: u64, length: usize) -> Vec<u64> {
    let mut rng = Rng::new(seed);
    (0..length).map(|_| rng.bits()).collect()
}

pub fn noise_bytes(seed: u64, length: usize) -> Vec<u8> {
    let words = noise_words(seed, length.div_ceil(8));
    let bytes = words.into_iter().flat_map(u64::to_le_bytes);
    bytes.take(length).collect()
}

/// What is required or up to 99 more; where `short`, one less or any smaller size.
pub fn size(rng: &mut Rng, required: usize, short: bool) -> usize {
    match (short, rng.chance(50)) {
        (true, true) => required - 1,
        (true, false) => rng.below(required),
        (false, true) => required,
        (false, false) => required + rng.below(100),
    }
}

/// Whether so many words and bytes are room for an ad.
fn suffice(words: usize, bytes: usize) -> bool {
    words >= layout::WORDS && bytes >= layout::BYTES
}

pub fn has_room(words: &[u64], bytes: &[u8]) -> bool {
    suffice(words.len(), bytes.len())
}

/// Memory for an ad: its sizes, and the seed of its noise.
#[derive(Clone, Copy)]
pub struct Rooms {
    pub words: usize,
    pub bytes: usize,
    noise: u64,
}

impl Rooms {
    /// In `percent` of a hundred cases too few words, bytes or both.
    pub fn draw(rng: &mut Rng, percent: usize) -> Rooms {
        let short = if rng.chance(percent) {
            rng.between(1, 3)
        } else {
            0
        };
        Rooms {
            words: size(rng, layout::WORDS, short & 1 != 0),
            bytes: size(rng, layout::BYTES, short & 2 != 0),
            noise: rng.bits(),
        }
    }

    pub fn suffice(&self) -> bool {
        suffice(self.words, self.bytes)
    }

    /// The tree of a stored ad in this memory; or the number of the refusal, 1 before 10.
    pub fn tree(&self, sample: &Sample) -> Result<Ad, u64> {
        if !self.suffice() {
            return Err(1);
        }
        sample.tree().ok_or(10)
    }

    pub fn noise(&self) -> Stored {
        Stored {
            words: noise_words(self.noise, self.words),
            bytes: noise_bytes(!self.noise, self.bytes),
        }
    }

    /// This content, as far as there is room, and noise behind it.
    pub fn holding(&self, content: &Stored) -> Stored {
        let words = self.words.min(content.words.len());
        let bytes = self.bytes.min(content.bytes.len());
        let mut memory = Stored {
            words: content.words[..words].to_vec(),
            bytes: content.bytes[..bytes].to_vec(),
        };
        memory
            .words
            .extend(noise_words(self.noise, self.words - words));
        memory
            .bytes
            .extend(noise_bytes(!self.noise, self.bytes - bytes));
        memory
    }

    pub fn show(&self) -> String {
        format!("{} words, {} bytes", self.words, self.bytes)
    }
}
