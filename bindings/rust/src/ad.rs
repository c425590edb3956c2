//! One ad in memory of its own.

use crate::bounds::{BYTES, DEFINITIONS, TEXT_BYTES, WORDS};
use crate::{sys, Definition, Reference, Refusal};
use std::fmt;
use std::str::FromStr;

/// Where the definitions begin in an ad's words, and the words of each (docs/LAYOUT.md).
const DEFINITIONS_START: usize = WORDS - DEFINITIONS * DEFINITION_WORDS;
const DEFINITION_WORDS: usize = 3;
/// The words of a node, and the kinds of nodes that refer to a name.
const NODE_WORDS: usize = 4;
const OWN_REFERENCE: u64 = 7;
const OTHER_REFERENCE: u64 = 8;

/// A well-formed ad: read from a text, or checked where it was stored.
///
/// Two ads are equal if their content is: definitions, order, names as written, kinds and
/// literals.
///
/// ```
/// use classad::Ad;
///
/// let ad: Ad = "[ A=(1+2)+3 ;B=--A; ]".parse()?;
/// assert_eq!((ad.definition_count(), ad.node_count()), (2, 8));
/// assert_eq!(ad.print()?, "[A = 1 + 2 + 3; B = --A]");
/// assert_eq!(Ad::read(ad.print()?.as_bytes())?, ad);
/// assert_ne!(Ad::read(b"[a = 1]")?, Ad::read(b"[A = 1]")?);
/// # Ok::<(), classad::Refusal>(())
/// ```
///
/// Its definitions are found by name, without regard to case:
///
/// ```
/// let bench: classad::Ad = "[Free = 1 + 2; Requirements = !(other.PulseWidth > 50)]".parse()?;
/// let free = bench.definition("free").unwrap();
/// assert_eq!((free.name, free.expression()?.as_str()), ("Free", "1 + 2"));
/// assert!(bench.definition("Rank").is_none());
/// # Ok::<(), classad::Refusal>(())
/// ```
#[derive(Clone, PartialEq, Eq, Hash)]
pub struct Ad {
    words: Box<[u64]>,
    bytes: Box<[u8]>,
    definitions: usize,
    nodes: usize,
}

impl Ad {
    /// Reads a text.
    ///
    /// # Errors
    /// Refusals 2 to 9.
    pub fn read(text: &[u8]) -> Result<Ad, Refusal> {
        let mut words = vec![0; WORDS].into_boxed_slice();
        let mut bytes = vec![0; BYTES].into_boxed_slice();
        let mut answer = [0; 3];
        sys::read(text, &mut words, &mut bytes, &mut answer);
        match answer {
            [0, definitions, nodes] => Ok(Ad {
                words,
                bytes,
                definitions: definitions as usize,
                nodes: nodes as usize,
            }),
            [number, place, _] => Err(Refusal::of_text(number, place, text)),
        }
    }

    /// Takes an ad from memory as [`stored`](Ad::stored) shows it, after a check. Memory
    /// beyond [`WORDS`] and [`BYTES`] is no part of the ad.
    ///
    /// ```
    /// use classad::{Ad, Refusal};
    ///
    /// let ad: Ad = "[a = 1]".parse()?;
    /// let (words, bytes) = ad.stored();
    /// assert_eq!(Ad::from_stored(words, bytes)?, ad);
    ///
    /// let mut damaged = words.to_vec();
    /// damaged[1] = 1 << 31; // the Integer, one over its range
    /// assert_eq!(Ad::from_stored(&damaged, bytes), Err(Refusal::NotWellFormed));
    /// # Ok::<(), classad::Refusal>(())
    /// ```
    ///
    /// # Errors
    /// Refusal 1 where a slice is too short; 10 where reading no text would leave this content.
    pub fn from_stored(words: &[u64], bytes: &[u8]) -> Result<Ad, Refusal> {
        let mut answer = [0; 4];
        sys::check(words, bytes, &mut answer);
        match answer {
            [0, definitions, nodes, _] => Ok(Ad {
                words: words[..WORDS].into(),
                bytes: bytes[..BYTES].into(),
                definitions: definitions as usize,
                nodes: nodes as usize,
            }),
            [number, ..] => Err(Refusal::without_place(number)),
        }
    }

    /// The ad's words and bytes, [`WORDS`] and [`BYTES`] long, as docs/LAYOUT.md describes them.
    pub fn stored(&self) -> (&[u64], &[u8]) {
        (&self.words, &self.bytes)
    }

    /// How many definitions the ad has.
    pub fn definition_count(&self) -> usize {
        self.definitions
    }

    /// How many nodes the ad has. Its nodes are numbered from 0, operands before operators.
    pub fn node_count(&self) -> usize {
        self.nodes
    }

    /// The definitions in their order.
    ///
    /// ```
    /// let ad: classad::Ad = "[a = 1 + 2; B = c]".parse()?;
    /// for definition in ad.definitions() {
    ///     println!("{} = {}", definition.name, definition.expression()?);
    /// }
    /// let roots: Vec<_> = ad.definitions().map(|it| (it.name, it.root)).collect();
    /// assert_eq!(roots, [("a", 2), ("B", 3)]);
    /// # Ok::<(), classad::Refusal>(())
    /// ```
    pub fn definitions(&self) -> impl ExactSizeIterator<Item = Definition<'_>> {
        (0..self.definitions).map(|number| self.numbered(number))
    }

    /// The definition of a name, in whatever case either is written; none where the ad has no
    /// such definition.
    pub fn definition(&self, name: &str) -> Option<Definition<'_>> {
        self.definitions()
            .find(|it| it.name.eq_ignore_ascii_case(name))
    }

    /// The definition that a node belongs to; none where the ad has no such node.
    ///
    /// ```
    /// let ad: classad::Ad = "[a = 1 + 2; b = c]".parse()?;
    /// assert_eq!(ad.definition_of(1).unwrap().name, "a");
    /// assert_eq!(ad.definition_of(3).unwrap().name, "b");
    /// assert!(ad.definition_of(4).is_none());
    /// # Ok::<(), classad::Refusal>(())
    /// ```
    pub fn definition_of(&self, node: usize) -> Option<Definition<'_>> {
        let mut answer = [0; 4];
        sys::definition(&self.words, node, &mut answer);
        match answer {
            [1, number, ..] => Some(self.numbered(number as usize)),
            _ => None,
        }
    }

    fn numbered(&self, number: usize) -> Definition<'_> {
        let at = DEFINITIONS_START + DEFINITION_WORDS * number;
        let [offset, length, root] = [0, 1, 2].map(|word| self.words[at + word]);
        Definition {
            ad: self,
            name: self.name(offset, length),
            root: root as usize,
        }
    }

    /// The references in the order of their nodes, which is that of the text.
    ///
    /// ```
    /// let ad: classad::Ad = "[a = b + other.C]".parse()?;
    /// let found: Vec<_> = ad.references().map(|it| (it.node, it.name, it.is_other)).collect();
    /// assert_eq!(found, [(0, "b", false), (1, "C", true)]);
    /// # Ok::<(), classad::Refusal>(())
    /// ```
    pub fn references(&self) -> impl Iterator<Item = Reference<'_>> {
        (0..self.nodes).filter_map(|node| {
            let at = NODE_WORDS * node;
            let [kind, offset, length] = [0, 1, 2].map(|word| self.words[at + word]);
            let found = kind == OWN_REFERENCE || kind == OTHER_REFERENCE;
            found.then(|| Reference {
                node,
                name: self.name(offset, length),
                is_other: kind == OTHER_REFERENCE,
            })
        })
    }

    fn name(&self, offset: u64, length: u64) -> &str {
        let start = offset as usize;
        let name = &self.bytes[start..start + length as usize];
        std::str::from_utf8(name).expect("a name is ASCII")
    }

    /// The text of the ad, with parentheses only where they are needed. It reads back as an
    /// equal ad.
    ///
    /// # Errors
    /// Refusal 11 where the text is over 16,384 bytes, which the text of a large ad can be,
    /// since it has a blank on each side of an operator.
    pub fn print(&self) -> Result<String, Refusal> {
        printed(|output, answer| sys::print(&self.words, &self.bytes, output, answer))
    }

    /// The text of one node's expression; none where the ad has no such node.
    ///
    /// ```
    /// let ad: classad::Ad = "[a = (1 + 2) * other.b]".parse()?;
    /// assert_eq!(ad.expression(2)?.unwrap(), "1 + 2");
    /// assert_eq!(ad.expression(4)?.unwrap(), "(1 + 2) * other.b");
    /// assert_eq!(ad.expression(5)?, None);
    /// # Ok::<(), classad::Refusal>(())
    /// ```
    ///
    /// # Errors
    /// Refusal 11, as [`print`](Ad::print).
    pub fn expression(&self, node: usize) -> Result<Option<String>, Refusal> {
        let text = printed(|output, answer| {
            sys::expression(&self.words, &self.bytes, node, output, answer);
        })?;
        // No expression prints as an empty text.
        Ok(Some(text).filter(|text| !text.is_empty()))
    }
}

/// The text that a call puts into the front of an output.
fn printed(call: impl FnOnce(&mut [u8], &mut [u64; 2])) -> Result<String, Refusal> {
    let mut output = vec![0; TEXT_BYTES];
    let mut answer = [0; 2];
    call(&mut output, &mut answer);
    match answer {
        [0, length] => {
            output.truncate(length as usize);
            Ok(String::from_utf8(output).expect("printed text is ASCII"))
        }
        [number, _] => Err(Refusal::without_place(number)),
    }
}

impl FromStr for Ad {
    type Err = Refusal;

    fn from_str(text: &str) -> Result<Ad, Refusal> {
        Ad::read(text.as_bytes())
    }
}

/// The text of the ad, as [`print`](Ad::print) gives it. Where that is refused, the phrase of
/// the refusal stands in parentheses, as in a trace (docs/COMMANDS.md); it reads as no ad.
///
/// ```
/// let ad: classad::Ad = "[a=1;]".parse()?;
/// assert_eq!(format!("{ad}"), "[a = 1]");
/// # Ok::<(), classad::Refusal>(())
/// ```
impl fmt::Display for Ad {
    fn fmt(&self, formatter: &mut fmt::Formatter) -> fmt::Result {
        match self.print() {
            Ok(text) => formatter.write_str(&text),
            Err(refusal) => write!(formatter, "({})", refusal.phrase()),
        }
    }
}

/// The text of the ad, or its counts where that text is too long to print.
impl fmt::Debug for Ad {
    fn fmt(&self, formatter: &mut fmt::Formatter) -> fmt::Result {
        match self.print() {
            Ok(text) => write!(formatter, "Ad({text})"),
            Err(_) => write!(
                formatter,
                "Ad({} definitions, {} nodes)",
                self.definitions, self.nodes
            ),
        }
    }
}
