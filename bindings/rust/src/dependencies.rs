//! What depends on what in two ads.

use crate::bounds::{LIST_ENTRIES, NODES};
use crate::matching::entries;
use crate::{sys, Ad, Entry, Side};

/// The circular references of two ads and the list of their match.
///
/// ```
/// use classad::{Ad, Dependencies, Side};
///
/// let first: Ad = "[a = b; b = a is undefined; d = b]".parse()?;
/// let found = Dependencies::new(&first, &"[]".parse()?);
/// let circular: Vec<usize> = found.circular().map(|it| it.node).collect();
/// assert_eq!(circular, [0, 1]); // `b` in a, `a` in b; not `b` in d
/// assert!(!found.is_circular(Side::First, 4));
/// assert!(found.list().is_empty()); // neither Requirements nor Rank
/// # Ok::<(), classad::Refusal>(())
/// ```
#[derive(Clone, Debug, PartialEq, Eq)]
pub struct Dependencies {
    flags: Vec<u64>,
    list: Vec<Entry>,
    transitions: u64,
}

impl Dependencies {
    /// Finds them.
    pub fn new(first: &Ad, second: &Ad) -> Dependencies {
        let ads = [first, second];
        let mut flags = vec![0; 2 * NODES];
        let mut room = vec![0; LIST_ENTRIES];
        let mut answer = [0; 3];
        sys::dependencies(
            ads.map(|ad| ad.stored().0),
            ads.map(|ad| ad.stored().1),
            &mut flags,
            &mut room,
            &mut answer,
        );
        let [refused, transitions, _] = answer;
        // As in a match.
        assert_eq!(refused, 0, "the dependencies of two ads are refused");
        Dependencies {
            flags,
            list: entries(&room),
            transitions,
        }
    }

    /// Whether a node is a reference that leads back to itself, and therefore Undefined.
    pub fn is_circular(&self, side: Side, node: usize) -> bool {
        node < NODES && self.flags[Entry { side, node }.number()] == 1
    }

    /// The circular references, the first ad's before the second's.
    pub fn circular(&self) -> impl Iterator<Item = Entry> + '_ {
        (0..self.flags.len())
            .filter(|&number| self.flags[number] == 1)
            .map(Entry::numbered)
    }

    /// The list that a match goes through.
    pub fn list(&self) -> &[Entry] {
        &self.list
    }

    /// The transitions that found both.
    pub fn transitions(&self) -> u64 {
        self.transitions
    }
}
