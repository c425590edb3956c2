//! An independent second program for flat ClassAds, written from document 01
//! ("Required build and exact rules") alone. Its only purpose is to be compared
//! with the first program, so it is written for reading: small functions, each
//! with the sentence of document 01 that it implements, marked `01:`.
//!
//! Where the work happens:
//!
//! - `bytes`, `bounds`, `refusal`: letters, numbers that bound, refusals
//! - `token`, `read`: text to tree
//! - `tree`, `check`, `print`: the tree, its well-formedness, tree to text
//! - `value`: the six kinds of value and the operators
//! - `graph`: links, circular references, needs, evaluation order
//! - `evaluate`: values by memoised recursion over needs
//! - `matching`: table, step, run, match
//! - `components`: the same match by a linear search for loops, to be timed alone
//! - `report`, `phrase`, `show`: the lines that the command prints
//! - `graphviz`: the references between two ads' definitions, to be drawn
//! - `generate`, `rng`: seeded inputs and their coverage

pub mod bounds;
pub mod bytes;
pub mod check;
pub mod components;
pub mod evaluate;
pub mod generate;
pub mod graph;
pub mod graphviz;
pub mod matching;
pub mod phrase;
pub mod print;
pub mod read;
pub mod refusal;
pub mod report;
pub mod rng;
pub mod show;
pub mod token;
pub mod tree;
pub mod value;
