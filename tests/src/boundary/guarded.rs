//! Slices lent from the middle of larger vectors, whose ends no call may touch.

use std::fmt::Debug;

/// How many numbers lie on either side of a lent slice.
const GUARD: usize = 8;

/// How many numbers of a slice are shown.
const SHOWN: usize = 12;

/// What is lent, and what should be there after the call: so far what was there before it.
pub struct Guarded<T> {
    name: &'static str,
    all: Vec<T>,
    expected: Vec<T>,
}

impl<T: Copy + PartialEq + Debug> Guarded<T> {
    /// A slice of this content; `guard` is what lies around it.
    pub fn new(name: &'static str, content: &[T], guard: T) -> Guarded<T> {
        let around = [guard; GUARD];
        let all = [&around[..], content, &around[..]].concat();
        let expected = all.clone();
        Guarded {
            name,
            all,
            expected,
        }
    }

    pub fn len(&self) -> usize {
        self.all.len() - 2 * GUARD
    }

    pub fn slice(&self) -> &[T] {
        &self.all[GUARD..GUARD + self.len()]
    }

    pub fn slice_mut(&mut self) -> &mut [T] {
        let end = GUARD + self.len();
        &mut self.all[GUARD..end]
    }

    /// An answer of fixed length.
    pub fn array_mut<const N: usize>(&mut self) -> &mut [T; N] {
        self.slice_mut().try_into().expect("an answer's length")
    }

    pub fn expected_mut(&mut self) -> &mut [T] {
        let end = GUARD + self.len();
        &mut self.expected[GUARD..end]
    }

    /// Puts numbers into what should be there, as far as there is room.
    pub fn expect_front(&mut self, numbers: &[T]) {
        let length = self.len().min(numbers.len());
        self.expected_mut()[..length].copy_from_slice(&numbers[..length]);
    }
}

/// A slice after the call.
pub trait Compared {
    fn same(&self) -> bool;
    /// A line for the slice, and a second one for its first difference.
    fn show(&self) -> String;
}

impl<T: Copy + PartialEq + Debug> Compared for Guarded<T> {
    fn same(&self) -> bool {
        self.all == self.expected
    }

    fn show(&self) -> String {
        let after = self.slice();
        let more = if after.len() > SHOWN { " .." } else { "" };
        let front = &after[..after.len().min(SHOWN)];
        let mut lines = format!("{:<10} {} long: {front:?}{more}\n", self.name, after.len());
        let differs = |at: &usize| self.all[*at] != self.expected[*at];
        if let Some(at) = (0..self.all.len()).find(differs) {
            let place = at as i64 - GUARD as i64;
            lines += &format!(
                "  at {place}: library {:?}, should be {:?}\n",
                self.all[at], self.expected[at]
            );
        }
        lines
    }
}
