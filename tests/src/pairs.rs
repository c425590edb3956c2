//! Pairs of stored ads in lent memory.

use crate::damage;
use crate::layout::Stored;
use crate::memory::Rooms;
use crate::sample::Sample;
use crate::stored::Samples;
use reference::generate::{ads, loops, matches};
use reference::rng::Rng;
use reference::tree::Ad;

pub const FAMILIES: [&str; 12] = [
    "made for matching",
    "small pair",
    "rich pair",
    "shared names",
    "rings",
    "loops in loops",
    "large pair",
    "full pair",
    "the same ad twice",
    "an empty ad",
    "stored ad of any kind",
    "damaged ad",
];

/// Two stored ads and the sizes of their memory. The same ad twice is the same memory.
#[derive(Clone)]
pub struct Pair {
    pub samples: [Sample; 2],
    pub rooms: [Rooms; 2],
    pub twice: bool,
}

impl Pair {
    /// A pair and its family.
    pub fn draw(rng: &mut Rng, stored: &Samples) -> (usize, Pair) {
        let family = match rng.below(1_000) {
            0..=399 => 0,
            400..=479 => 1,
            480..=679 => 2,
            680..=719 => 3,
            720..=739 => 4,
            740..=743 => 6,
            744..=747 => 7,
            748..=807 => 8,
            808..=827 => 9,
            828..=867 => 10,
            868..=959 => 11,
            _ => 5,
        };
        let samples = samples(rng, family, stored);
        let twice = family == 8;
        let mut rooms = [Rooms::draw(rng, 1), Rooms::draw(rng, 1)];
        if twice {
            rooms[1] = rooms[0];
        }
        let pair = Pair {
            samples,
            rooms,
            twice,
        };
        (family, pair)
    }

    pub fn with(&self, samples: &[Sample; 2]) -> Pair {
        let mut samples = samples.clone();
        if self.twice {
            samples[1] = samples[0].clone();
        }
        Pair {
            samples,
            rooms: self.rooms,
            twice: self.twice,
        }
    }

    pub fn exchanged(&self) -> Pair {
        let [first, second] = self.samples.clone();
        let [first_rooms, second_rooms] = self.rooms;
        Pair {
            samples: [second, first],
            rooms: [second_rooms, first_rooms],
            twice: self.twice,
        }
    }

    pub fn memories(&self) -> [Stored; 2] {
        [0, 1].map(|side| self.rooms[side].holding(&self.samples[side].memory()))
    }

    /// Both trees; or the number of the refusal, 1 before 10.
    pub fn trees(&self, rooms_suffice: bool) -> Result<[Ad; 2], u64> {
        if !rooms_suffice || !self.rooms.iter().all(Rooms::suffice) {
            return Err(1);
        }
        match [0, 1].map(|side| self.samples[side].tree()) {
            [Some(first), Some(second)] => Ok([first, second]),
            _ => Err(10),
        }
    }

    pub fn show(&self) -> String {
        let [first, second] = &self.samples;
        let rooms = self.rooms.map(|rooms| rooms.show());
        let second = if self.twice {
            "the same memory\n".to_string()
        } else {
            second.show()
        };
        format!(
            "first      {}second     {second}memory     {}; {}\n",
            first.show(),
            rooms[0],
            rooms[1]
        )
    }
}

fn samples(rng: &mut Rng, family: usize, stored: &Samples) -> [Sample; 2] {
    let (first, second) = match family {
        0 => matches::match_pair(rng),
        1 => (ads::small_ad(rng), ads::small_ad(rng)),
        2 => ads::rich_pair(rng),
        3 => ads::shared_pair(rng),
        4 => ads::ring_pair(rng),
        5 => loops::loop_pair(rng),
        6 => ads::large_pair(rng),
        7 => ads::full_pair(rng),
        8 => {
            let ad = any_ad(rng);
            (ad.clone(), ad)
        }
        9 if rng.chance(20) => (Ad::default(), Ad::default()),
        9 => (any_ad(rng), Ad::default()),
        10 => {
            let samples = [stored.draw(rng, 0).1, Sample::of(any_ad(rng))];
            return either_way(rng, samples);
        }
        _ => return damaged(rng, stored),
    };
    either_way(rng, [Sample::of(first), Sample::of(second)])
}

fn any_ad(rng: &mut Rng) -> Ad {
    match rng.below(3) {
        0 => ads::small_ad(rng),
        1 => ads::rich_pair(rng).0,
        _ => matches::matching_ad(rng),
    }
}

/// One ad of the two, or both.
fn damaged(rng: &mut Rng, stored: &Samples) -> [Sample; 2] {
    let mut one = || {
        let kind = rng.below(damage::KINDS.len());
        stored.damaged(rng, kind)
    };
    let first = one();
    let second = one();
    if rng.chance(20) {
        return [first, second];
    }
    let whole = Sample::of(any_ad(rng));
    either_way(rng, [first, whole])
}

fn either_way(rng: &mut Rng, samples: [Sample; 2]) -> [Sample; 2] {
    let [first, second] = samples;
    if rng.chance(50) {
        [first, second]
    } else {
        [second, first]
    }
}
