//! The sizes of document 01: how large an ad may be, and the memory that it and a match take.

/// The bytes of a text, read or printed.
pub const TEXT_BYTES: usize = 16_384;
/// The definitions of an ad.
pub const DEFINITIONS: usize = 256;
/// The nodes of an ad: literals, references and operators.
pub const NODES: usize = 1_024;
/// The words of a stored ad.
pub const WORDS: usize = 4_864;
/// The bytes of a stored ad, which hold its names and strings.
pub const BYTES: usize = 16_384;
/// The words of a match's table, two for each node of both ads.
pub const TABLE_WORDS: usize = 4_096;
/// The entries of a match's list, one for each node of both ads.
pub const LIST_ENTRIES: usize = 2_048;
/// The budget of [`Match::new`](crate::Match::new), which covers every list.
pub const DEFAULT_BUDGET: u16 = 65_535;
