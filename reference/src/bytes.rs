//! The classes of bytes that document 01 names.

/// 01: "Blank: space, tab, CR, LF, between tokens and at both ends."
pub fn is_blank(byte: u8) -> bool {
    matches!(byte, b' ' | b'\t' | b'\r' | b'\n')
}

/// 01: "Name: a letter or `_`, then letters, digits, `_`." The first byte.
pub fn starts_name(byte: u8) -> bool {
    byte.is_ascii_alphabetic() || byte == b'_'
}

/// 01: "Name: a letter or `_`, then letters, digits, `_`." Every further byte.
pub fn continues_name(byte: u8) -> bool {
    starts_name(byte) || byte.is_ascii_digit()
}

/// 01: "Names match without regard to ASCII case and are kept as written."
pub fn same_name(one: &[u8], two: &[u8]) -> bool {
    one.eq_ignore_ascii_case(two)
}

/// 01: "bytes 0x20 to 0x7E other than `"` and `\`": these stand for themselves.
pub fn stands_for_itself(byte: u8) -> bool {
    (0x20..=0x7E).contains(&byte) && byte != b'"' && byte != b'\\'
}

/// 01: "escapes `\"` `\\` `\n` `\t`": the byte that the letter behind `\` stands for.
pub fn escaped(letter: u8) -> Option<u8> {
    match letter {
        b'"' => Some(b'"'),
        b'\\' => Some(b'\\'),
        b'n' => Some(b'\n'),
        b't' => Some(b'\t'),
        _ => None,
    }
}

/// The same table from the other end: the letter that must stand behind `\`
/// for this byte, if the byte cannot stand for itself.
pub fn escape_letter(byte: u8) -> Option<u8> {
    match byte {
        b'"' => Some(b'"'),
        b'\\' => Some(b'\\'),
        b'\n' => Some(b'n'),
        b'\t' => Some(b't'),
        _ => None,
    }
}

/// Bytes that a string can hold once its escapes are read.
pub fn possible_in_string(byte: u8) -> bool {
    stands_for_itself(byte) || escape_letter(byte).is_some()
}
