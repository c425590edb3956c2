//! 01, "Numbers that bound it": "Text 16,384 bytes; 256 definitions; 1,024 nodes;
//! name 64 bytes; string 1,024 bytes after escapes; level 64. Each is itself
//! accepted; one more is refused."

pub const TEXT_BYTES: usize = 16_384;
pub const DEFINITIONS: usize = 256;
pub const NODES: usize = 1_024;
pub const NAME_BYTES: usize = 64;
pub const STRING_BYTES: usize = 1_024;
pub const LEVEL: usize = 64;

/// 01: "Integer: digits, ... 0 to 2,147,483,647."
pub const INTEGER: u64 = 2_147_483_647;
/// 01: "Real: digits, a point, digits; at most 15 digits in all."
pub const REAL_DIGITS: usize = 15;

/// 01: "16,384 bytes of names and strings".
pub const STORED_BYTES: usize = 16_384;
/// 01: "for a match, 2,048 values and a list of 2,048 entries".
pub const SLOTS: usize = 2_048;

/// The sizes of the memory lent for one ad.
#[derive(Clone, Copy, Debug, PartialEq, Eq)]
pub struct AdRoom {
    pub nodes: usize,
    pub definitions: usize,
    pub bytes: usize,
}

impl AdRoom {
    /// 01: "Lent memory for an ad has room for 1,024 nodes, 256 definitions and
    /// 16,384 bytes of names and strings".
    pub const REQUIRED: AdRoom = AdRoom {
        nodes: NODES,
        definitions: DEFINITIONS,
        bytes: STORED_BYTES,
    };

    /// Refusal 1 is given for "lent room smaller than above"; more is allowed.
    pub fn suffices(&self) -> bool {
        self.nodes >= NODES && self.definitions >= DEFINITIONS && self.bytes >= STORED_BYTES
    }
}

/// The sizes of the memory lent for one match.
#[derive(Clone, Copy, Debug, PartialEq, Eq)]
pub struct MatchRoom {
    pub values: usize,
    pub entries: usize,
}

impl MatchRoom {
    /// 01: "for a match, 2,048 values and a list of 2,048 entries".
    pub const REQUIRED: MatchRoom = MatchRoom {
        values: SLOTS,
        entries: SLOTS,
    };

    pub fn suffices(&self) -> bool {
        self.values >= SLOTS && self.entries >= SLOTS
    }
}
