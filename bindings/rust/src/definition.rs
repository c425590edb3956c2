//! Parts of an ad: its definitions and its references.

use crate::{Ad, Refusal};
use std::fmt;

/// A definition of an ad.
#[derive(Clone, Copy)]
pub struct Definition<'a> {
    pub(crate) ad: &'a Ad,
    /// The name as written.
    pub name: &'a str,
    /// The number of the expression's last node, whose value is that of the whole.
    pub root: usize,
}

/// A reference in an ad, `name` or `other.name`.
#[derive(Clone, Copy, Debug, PartialEq, Eq, Hash)]
pub struct Reference<'a> {
    /// The number of its node.
    pub node: usize,
    /// The name as written.
    pub name: &'a str,
    /// Whether it is `other.name`, so that the other ad of a match has the definition.
    pub is_other: bool,
}

impl Definition<'_> {
    /// The text of the expression.
    ///
    /// # Errors
    /// Refusal 11, as [`Ad::print`].
    pub fn expression(&self) -> Result<String, Refusal> {
        let text = self.ad.expression(self.root)?;
        Ok(text.expect("a definition has an expression"))
    }
}

/// Name and root, without the ad.
impl fmt::Debug for Definition<'_> {
    fn fmt(&self, formatter: &mut fmt::Formatter) -> fmt::Result {
        formatter
            .debug_struct("Definition")
            .field("name", &self.name)
            .field("root", &self.root)
            .finish_non_exhaustive()
    }
}
