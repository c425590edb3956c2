//! 01, "Numbers of refusal".

/// The eleven reasons, in the order of their numbers.
#[derive(Clone, Copy, Debug, PartialEq, Eq, PartialOrd, Ord)]
pub enum Reason {
    /// 1: "lent room smaller than above"
    RoomTooSmall = 1,
    /// 2: "text over 16,384 bytes"
    TextTooLong = 2,
    /// 3: "no token starts here, bad byte or escape in a string, string not closed"
    BadToken = 3,
    /// 4: "token does not fit the grammar, or text ends early"
    DoesNotFit = 4,
    /// 5: "Integer over the range, Real over 15 digits"
    NumberTooLarge = 5,
    /// 6: "level 65"
    TooDeep = 6,
    /// 7: "name or string too long"
    TokenTooLong = 7,
    /// 8: "name defined twice"
    DefinedTwice = 8,
    /// 9: "257th definition or 1,025th node"
    TooMany = 9,
    /// 10: "stored numbers are no well-formed tree within the bounds above"
    NotWellFormed = 10,
    /// 11: "printed text longer than the lent output or than 16,384"
    PrintTooLong = 11,
}

impl Reason {
    pub const ALL: [Reason; 11] = [
        Reason::RoomTooSmall,
        Reason::TextTooLong,
        Reason::BadToken,
        Reason::DoesNotFit,
        Reason::NumberTooLarge,
        Reason::TooDeep,
        Reason::TokenTooLong,
        Reason::DefinedTwice,
        Reason::TooMany,
        Reason::NotWellFormed,
        Reason::PrintTooLong,
    ];

    pub fn number(self) -> usize {
        self as usize
    }
}

/// 01: "A refusal carries its number and a place, 0 for 1, 2, 10 and 11."
#[derive(Clone, Copy, Debug, PartialEq, Eq)]
pub struct Refusal {
    pub reason: Reason,
    pub place: usize,
}

impl Refusal {
    /// A refusal at a token: "its first byte is the place".
    pub fn at(reason: Reason, place: usize) -> Refusal {
        Refusal { reason, place }
    }

    /// A refusal of the whole call, whose place is 0 by rule.
    pub fn whole(reason: Reason) -> Refusal {
        Refusal { reason, place: 0 }
    }

    pub fn number(&self) -> usize {
        self.reason.number()
    }

    /// True where the place is a place of the text, and not 0 by rule.
    pub fn has_place(&self) -> bool {
        !matches!(self.number(), 1 | 2 | 10 | 11)
    }
}
