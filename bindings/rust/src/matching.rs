//! The match of two ads.

use crate::bounds::{DEFAULT_BUDGET, LIST_ENTRIES, NODES, TABLE_WORDS};
use crate::{sys, Ad, Value};
use std::fmt;

/// One of the two ads of a match.
#[derive(Clone, Copy, Debug, PartialEq, Eq, PartialOrd, Ord, Hash)]
pub enum Side {
    /// The first ad.
    First,
    /// The second ad.
    Second,
}

/// A node of either ad: an entry of a match's list.
#[derive(Clone, Copy, Debug, PartialEq, Eq, PartialOrd, Ord, Hash)]
pub struct Entry {
    /// The ad.
    pub side: Side,
    /// The node's number in that ad.
    pub node: usize,
}

impl Side {
    /// The other one.
    pub fn other(self) -> Side {
        match self {
            Side::First => Side::Second,
            Side::Second => Side::First,
        }
    }
}

/// `first` or `second`.
impl fmt::Display for Side {
    fn fmt(&self, formatter: &mut fmt::Formatter) -> fmt::Result {
        formatter.write_str(match self {
            Side::First => "first",
            Side::Second => "second",
        })
    }
}

impl Entry {
    /// The entry of a number 1,024 · side + node.
    pub(crate) fn numbered(number: usize) -> Entry {
        let side = if number < NODES {
            Side::First
        } else {
            Side::Second
        };
        Entry {
            side,
            node: number % NODES,
        }
    }

    /// 1,024 · side + node.
    pub(crate) fn number(self) -> usize {
        NODES * self.side as usize + self.node
    }
}

/// The entries in a list's room: each a number plus 1, up to the first 0.
pub(crate) fn entries(room: &[u64]) -> Vec<Entry> {
    room.iter()
        .take_while(|&&word| word != 0)
        .map(|&word| Entry::numbered(word as usize - 1))
        .collect()
}

/// A match of two ads: a verdict and ranks if it is finished, the list of nodes that it needs,
/// and the values of those that it has worked out.
///
/// ```
/// use classad::{Ad, Match, Side, Value};
///
/// let job: Ad = "[Requirements = other.w > 50]".parse()?;
/// let bench: Ad = "[w = 60; Requirements = true]".parse()?;
/// let finished = Match::new(&job, &bench);
/// assert!(finished.is_matched());
/// assert_eq!(finished.ranks(), Some((0, 0)));
/// assert_eq!(finished.steps(), 5);
/// assert_eq!(finished.value(Side::Second, 0), Some(Value::Integer(60)));
///
/// let short = Match::with_budget(&job, &bench, 4);
/// assert!(!short.is_matched());
/// assert_eq!((short.verdict(), short.ranks()), (None, None));
/// # Ok::<(), classad::Refusal>(())
/// ```
///
/// Where a name is missing, there is no match:
///
/// ```
/// use classad::{Ad, Match, Side, Value};
///
/// let job: Ad = "[Requirements = true]".parse()?;
/// let bench: Ad = "[Requirements = !(other.PulseWidth > 50)]".parse()?;
/// let unmatched = Match::new(&job, &bench);
/// assert_eq!(unmatched.verdict(), Some(false));
/// assert_eq!(unmatched.requirements(Side::First), Some(Value::Boolean(true)));
/// assert_eq!(unmatched.requirements(Side::Second), Some(Value::Undefined));
/// # Ok::<(), classad::Refusal>(())
/// ```
#[derive(Clone)]
pub struct Match<'a> {
    ads: [&'a Ad; 2],
    table: Box<[u64]>,
    list: Vec<Entry>,
    /// None where the budget did not cover the list.
    conclusion: Option<Conclusion>,
    steps: usize,
    transitions: u64,
}

/// What a finished match answers.
#[derive(Clone, Copy)]
struct Conclusion {
    matched: bool,
    ranks: (u32, u32),
}

impl<'a> Match<'a> {
    /// Matches two ads to the end: the budget covers every list.
    pub fn new(first: &'a Ad, second: &'a Ad) -> Match<'a> {
        Match::with_budget(first, second, DEFAULT_BUDGET)
    }

    /// Matches two ads in as many steps as the budget has, one for each entry of the list. If
    /// the list is longer, the match is not finished and has no verdict.
    pub fn with_budget(first: &'a Ad, second: &'a Ad, budget: u16) -> Match<'a> {
        let ads = [first, second];
        let mut table = vec![0; TABLE_WORDS].into_boxed_slice();
        let mut room = vec![0; LIST_ENTRIES];
        let mut answer = [0; 7];
        sys::matching(
            ads.map(|ad| ad.stored().0),
            ads.map(|ad| ad.stored().1),
            &mut table,
            &mut room,
            budget,
            &mut answer,
        );
        let [refused, finished, matched, first_rank, second_rank, steps, transitions] = answer;
        // An `Ad` is well formed and the rooms are large enough, so nothing is refused.
        assert_eq!(refused, 0, "a match of two ads is refused");
        let conclusion = Conclusion {
            matched: matched == 1,
            ranks: (first_rank as u32, second_rank as u32),
        };
        Match {
            ads,
            table,
            list: entries(&room),
            conclusion: Some(conclusion).filter(|_| finished == 1),
            steps: steps as usize,
            transitions,
        }
    }

    /// Whether the budget covered the list.
    pub fn is_finished(&self) -> bool {
        self.conclusion.is_some()
    }

    /// Whether the match is finished and both Requirements are true. False where it is not
    /// finished.
    pub fn is_matched(&self) -> bool {
        self.verdict() == Some(true)
    }

    /// Whether the ads match; none where the match is not finished.
    pub fn verdict(&self) -> Option<bool> {
        self.conclusion.map(|it| it.matched)
    }

    /// The ranks of the first ad and of the second, matched or not: the Integer if it is 0 or
    /// more, otherwise 0. None where the match is not finished.
    pub fn ranks(&self) -> Option<(u32, u32)> {
        self.conclusion.map(|it| it.ranks)
    }

    /// The rank of one ad; none where the match is not finished.
    pub fn rank(&self, side: Side) -> Option<u32> {
        let (first, second) = self.ranks()?;
        Some(match side {
            Side::First => first,
            Side::Second => second,
        })
    }

    /// The value of an ad's Requirements. None where the ad has no such definition, and where
    /// no step has given it a value, which a match that is finished has always done.
    ///
    /// ```
    /// use classad::{Ad, Match, Side, Value};
    ///
    /// let job: Ad = "[requirements = other.Free]".parse()?;
    /// let bench: Ad = "[Free = 3; Rank = 7]".parse()?;
    /// let unmatched = Match::new(&job, &bench);
    /// assert_eq!(unmatched.requirements(Side::First), Some(Value::Integer(3)));
    /// assert_eq!(unmatched.requirements(Side::Second), None);
    /// assert_eq!(unmatched.rank(Side::Second), Some(7));
    /// # Ok::<(), classad::Refusal>(())
    /// ```
    pub fn requirements(&self, side: Side) -> Option<Value<'a>> {
        let definition = self.ad(side).definition("Requirements")?;
        self.value(side, definition.root)
    }

    /// The steps done, each of which gave one value.
    pub fn steps(&self) -> usize {
        self.steps
    }

    /// The transitions that found the circular references and the list.
    pub fn transitions(&self) -> u64 {
        self.transitions
    }

    /// The whole list in the order of the steps, whatever the budget.
    pub fn list(&self) -> &[Entry] {
        &self.list
    }

    /// The ad of a side.
    pub fn ad(&self, side: Side) -> &'a Ad {
        self.ads[side as usize]
    }

    /// The value of a node; none where no step has given it one or the ad has no such node.
    pub fn value(&self, side: Side, node: usize) -> Option<Value<'a>> {
        let mut answer = [0; 4];
        sys::value(&self.table, side as u64, node, &mut answer);
        match answer {
            [1, ..] => Some(Value::Undefined),
            [2, ..] => Some(Value::Error),
            [3, truth, ..] => Some(Value::Boolean(truth == 1)),
            [4, bits, ..] => Some(Value::Integer(bits as u32 as i32)),
            [5, bits, ..] => Some(Value::Real(f64::from_bits(bits))),
            [6, side, offset, length] => {
                let bytes = self.string(side, offset as u16, length as u16);
                Some(Value::String(bytes))
            }
            _ => None,
        }
    }

    fn string(&self, side: u64, offset: u16, length: u16) -> &'a [u8] {
        let bytes = self.ads.map(|ad| ad.stored().1);
        let mut answer = [0; 2];
        sys::string(bytes, side, offset, length, &mut answer);
        let [start, count] = answer.map(|number| number as usize);
        &bytes[usize::from(side != 0)][start..start + count]
    }
}

/// The answer, without table and list.
impl fmt::Debug for Match<'_> {
    fn fmt(&self, formatter: &mut fmt::Formatter) -> fmt::Result {
        formatter
            .debug_struct("Match")
            .field("verdict", &self.verdict())
            .field("ranks", &self.ranks())
            .field("steps", &self.steps)
            .field("length", &self.list.len())
            .finish_non_exhaustive()
    }
}
