//! What a line of an output shows, for the counts: they say which lines were compared.

pub const SIDES: [&str; 2] = ["first", "second"];

/// Number and phrase of every refusal that a text can cause.
pub const PHRASES: [&str; 16] = [
    "2 text over 16,384 bytes",
    "3 no token starts here",
    "3 bad byte in a string",
    "3 bad escape in a string",
    "3 string not closed",
    "4 token does not fit here",
    "4 text ends early",
    "5 Integer over 2,147,483,647",
    "5 Real over 15 digits",
    "6 nested deeper than level 64",
    "7 name over 64 bytes",
    "7 string over 1,024 bytes",
    "8 name defined twice",
    "9 over 256 definitions",
    "9 over 1,024 nodes",
    "11 printed text over 16,384 bytes",
];

/// Of a Requirements that is not true.
pub const VALUES: [&str; 11] = [
    "no Requirements",
    "undefined",
    "error",
    "false",
    "Integer",
    "negative Integer",
    "plain Real",
    "Real with exponent",
    "Real as a word",
    "String",
    "String with escapes",
];

pub const ARROWS: [&str; 6] = [
    "found in its ad",
    "found in the other",
    "circular in its ad",
    "circular over both",
    "absent in its ad",
    "absent in the other",
];

/// The phrase of a line `FILE: refused NUMBER at PLACE ..: PHRASE`.
pub fn phrase(line: &str) -> Option<usize> {
    let (_, rest) = line.split_once(": refused ")?;
    let (number, rest) = rest.split_once(" at ")?;
    let (_, phrase) = rest.rsplit_once(": ")?;
    let found = format!("{number} {phrase}");
    PHRASES.iter().position(|known| *known == found)
}

/// The kind of value and the side of a line about a Requirements that is not true.
pub fn untrue(line: &str) -> Option<(usize, usize)> {
    let (name, rest) = line.split_once(' ')?;
    let side = SIDES.iter().position(|side| *side == name)?;
    if rest == "ad has no Requirements" {
        return Some((0, side));
    }
    let kind = kind(rest.strip_prefix("Requirements is ")?);
    let row = VALUES.iter().position(|known| *known == kind)?;
    Some((row, side))
}

fn kind(value: &str) -> &str {
    let digits = value.strip_prefix('-').unwrap_or(value);
    match digits {
        "undefined" | "error" | "false" => digits,
        "infinity" | "not-a-number" => "Real as a word",
        _ if value.starts_with('"') && value.contains('\\') => "String with escapes",
        _ if value.starts_with('"') => "String",
        _ if value.contains('e') => "Real with exponent",
        _ if value.contains('.') => "plain Real",
        _ if value.starts_with('-') => "negative Integer",
        _ => "Integer",
    }
}

/// The kind and the side of an arrow of a graph. "circular over both" is a reference to
/// the other ad.
pub fn arrow(line: &str) -> Option<(usize, usize)> {
    let (from, to) = line.strip_prefix("  \"")?.split_once(" -> \"")?;
    let side = SIDES.iter().position(|side| from.starts_with(side))?;
    let across = usize::from(!to.starts_with(SIDES[side]));
    let kind = if to.contains("[label=\"circular\"") {
        1
    } else if to.contains("[label=\"absent\"") {
        2
    } else {
        0
    };
    Some((2 * kind + across, side))
}
