//! What is lent: lengths of every kind, and contents of every kind.

use super::guarded::{Compared, Guarded};
use crate::decode;
use crate::layout::{self, Stored};
use crate::memory::{has_room, noise_bytes, noise_words};
use crate::reading::draw::Texts;
use crate::sample::Sample;
use crate::stored::Samples;
use reference::bounds::DEFINITIONS;
use reference::generate::ads;
use reference::rng::Rng;
use reference::tree::Ad;

/// Lengths of a slice beside the room that its function asks for or can use.
pub const LENGTHS: [&str; 6] = ["0", "1", "one less", "the room", "more", "any less"];

/// Draws the slices and numbers of one call.
pub struct Draw<'a> {
    pub rng: Rng,
    pub stored: &'a Samples,
    pub texts: &'a Texts,
    /// How many of a hundred slices are shorter than the room.
    pub short: usize,
    /// The kinds of lengths drawn.
    pub lengths: Vec<usize>,
}

/// One call after it was made: its slices, what went in beside them, and the answer's column.
pub struct Call {
    pub column: usize,
    pub slices: Vec<Box<dyn Compared>>,
    pub inputs: Vec<Input>,
}

impl Call {
    pub fn with(mut self, slice: impl Compared + 'static) -> Call {
        self.slices.push(Box::new(slice));
        self
    }

    pub fn with_ad(mut self, name: &'static str, ad: GuardedAd) -> Call {
        self.inputs.push(Input::Ad(name, ad.content));
        self.with(ad.words).with(ad.bytes)
    }

    pub fn with_number(mut self, name: &'static str, number: u64) -> Call {
        self.inputs.push(Input::Number(name, number));
        self
    }
}

/// For the reader of a difference.
pub enum Input {
    Number(&'static str, u64),
    Ad(&'static str, Content),
}

impl Input {
    pub fn show(&self) -> String {
        match self {
            Input::Number(name, number) => format!("{name:<10} {number}\n"),
            Input::Ad(name, Content::Sample(sample)) => format!("{name:<10} {}", sample.show()),
            Input::Ad(name, Content::Noise) => format!("{name:<10} noise\n"),
            Input::Ad(name, Content::Likely) => format!("{name:<10} likely numbers\n"),
        }
    }
}

/// What an ad's memory holds.
pub enum Content {
    Sample(Box<Sample>),
    /// Any words and bytes.
    Noise,
    /// Numbers as an ad has them, in no order.
    Likely,
}

/// The words and bytes of an ad, each with a length of its own.
pub struct GuardedAd {
    pub words: Guarded<u64>,
    pub bytes: Guarded<u8>,
    pub content: Content,
}

impl GuardedAd {
    /// The tree that the memory holds; or the number of the refusal, 1 before 10.
    pub fn tree(&self) -> Result<Ad, u64> {
        let (words, bytes) = (self.words.slice(), self.bytes.slice());
        if !has_room(words, bytes) {
            return Err(1);
        }
        let memory = Stored {
            words: words[..layout::WORDS].to_vec(),
            bytes: bytes[..layout::BYTES].to_vec(),
        };
        decode::well_formed(&memory).ok_or(10)
    }
}

/// As many definitions as an ad can have, or one less.
fn many_definitions(rng: &mut Rng) -> Ad {
    let count = DEFINITIONS - rng.below(2);
    let definitions = (0..count).map(|number| {
        let value = ads::integer(number as u32);
        ads::definition(&format!("n{number}"), value)
    });
    Ad {
        definitions: definitions.collect(),
    }
}

/// The content in front of the noise, cut where that is shorter.
fn over<T: Copy>(mut noise: Vec<T>, content: &[T]) -> Vec<T> {
    let kept = noise.len().min(content.len());
    noise[..kept].copy_from_slice(&content[..kept]);
    noise
}

impl Draw<'_> {
    fn length(&mut self, room: usize) -> usize {
        let kind = if self.rng.chance(self.short) {
            *self.rng.pick(&[0, 1, 2, 2, 5])
        } else {
            self.rng.between(3, 4)
        };
        self.lengths.push(kind);
        match kind {
            0 => 0,
            1 => 1,
            2 => room.saturating_sub(1),
            3 => room,
            4 => room + self.rng.between(1, 40),
            _ => self.rng.below(room + 1),
        }
    }

    /// Words of this content, and noise behind it.
    pub fn words(&mut self, name: &'static str, content: &[u64], room: usize) -> Guarded<u64> {
        let length = self.length(room);
        let noise = noise_words(self.rng.bits(), length);
        Guarded::new(name, &over(noise, content), self.rng.bits())
    }

    pub fn bytes(&mut self, name: &'static str, content: &[u8], room: usize) -> Guarded<u8> {
        let length = self.length(room);
        let noise = noise_bytes(self.rng.bits(), length);
        Guarded::new(name, &over(noise, content), self.rng.byte())
    }

    /// Exactly this content, of any length.
    pub fn whole(&mut self, name: &'static str, content: &[u8]) -> Guarded<u8> {
        Guarded::new(name, content, self.rng.byte())
    }

    pub fn answer(&mut self, length: usize) -> Guarded<u64> {
        let before = noise_words(self.rng.bits(), length);
        Guarded::new("answer", &before, self.rng.bits())
    }

    /// An ad's memory: whole, damaged, or noise.
    pub fn ad(&mut self, names: [&'static str; 2]) -> GuardedAd {
        let (content, memory) = self.ad_content();
        GuardedAd {
            words: self.words(names[0], &memory.words, layout::WORDS),
            bytes: self.bytes(names[1], &memory.bytes, layout::BYTES),
            content,
        }
    }

    fn ad_content(&mut self) -> (Content, Stored) {
        let seed = self.rng.bits();
        let mut memory = Stored {
            words: noise_words(seed, layout::WORDS),
            bytes: noise_bytes(!seed, layout::BYTES),
        };
        let percent = match self.rng.below(20) {
            0 => return (Content::Noise, memory),
            1 => {
                let bound = *self.rng.pick(&[2, 28, 1_030]);
                memory.words.iter_mut().for_each(|word| *word %= bound);
                return (Content::Likely, memory);
            }
            2..=6 => 100,
            _ => 0,
        };
        let sample = if self.rng.chance(10) {
            Sample::of(many_definitions(&mut self.rng))
        } else {
            self.stored.draw(&mut self.rng, percent).1
        };
        let memory = sample.memory();
        (Content::Sample(Box::new(sample)), memory)
    }

    /// The number of a node: any, one of the first, beside the bound, far beyond.
    pub fn node(&mut self) -> usize {
        match self.rng.below(8) {
            0 => self.rng.between(1_022, 1_026),
            1 => self.rng.bits() as usize >> self.rng.below(64),
            2 => *self
                .rng
                .pick(&[usize::MAX, usize::MAX / 2, 1 << 32, 1 << 62]),
            3 => self.rng.below(1_024),
            _ => self.rng.below(12),
        }
    }
}
