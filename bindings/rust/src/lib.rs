//! ClassAds: reading, printing and matching over a proved library.
//!
//! ```
//! use classad::{Ad, Match};
//!
//! let job: Ad = "[PulseWidth = 25; Requirements = true; Rank = other.Free]".parse()?;
//! let bench: Ad = "[Free = 3; Requirements = !(other.PulseWidth > 50)]".parse()?;
//! let matching = Match::new(&job, &bench);
//! assert!(matching.is_matched());
//! assert_eq!(matching.ranks(), Some((3, 0)));
//! # Ok::<(), classad::Refusal>(())
//! ```
//!
//! Where two ads do not match, the Requirements say why, and a text that is refused says where:
//!
//! ```
//! use classad::{Ad, Match, Side, Value};
//!
//! let job: Ad = "[Requirements = true]".parse()?;
//! let bench: Ad = "[Requirements = !(other.PulseWidth > 50)]".parse()?;
//! let matching = Match::new(&job, &bench);
//! assert!(!matching.is_matched());
//! assert_eq!(matching.requirements(Side::Second), Some(Value::Undefined));
//!
//! let refusal = "[Requirements = true".parse::<Ad>().unwrap_err();
//! assert_eq!(refusal.to_string(), "refused 4 at 20 (line 1, column 21): text ends early");
//! # Ok::<(), classad::Refusal>(())
//! ```
//!
//! An [`Ad`] is well formed, whichever way it was made, so a match of two of them is never
//! refused; whether it is finished depends on its budget, and only a finished [`Match`] has a
//! verdict. The types own their memory and call the functions of [`sys`], which are proved as
//! source in `crates/`; the types themselves are not proved but run.
//!
//! A call needs stack: the deepest ads tried took less than 512 KB. No bound is proved, and a
//! thread with too little ends the program by a stack overflow.

#![deny(missing_docs)]
#![deny(unsafe_code)]

mod ad;
pub mod bounds;
mod definition;
mod dependencies;
mod matching;
mod refusal;
#[allow(unsafe_code)]
pub mod sys;
mod value;

pub use ad::Ad;
pub use definition::{Definition, Reference};
pub use dependencies::Dependencies;
pub use matching::{Entry, Match, Side};
pub use refusal::{BadToken, MisplacedToken, NumberTooLarge, Place, Refusal, TooLong, TooMany};
pub use value::Value;
