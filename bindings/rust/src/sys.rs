//! The functions of the proved library (`crates/classad`) as they are, on numbers and
//! slices. A slice passes as a pointer and a length. docs/LAYOUT.md says what the numbers
//! of each answer mean. Any slice may be lent, of any length and content.
//!
//! Slices that are written overlap no other slice of the same call, as the library needs:
//! Rust's `&mut` guarantees it. `bindings/c/classad.h` describes each function in full.

// The flags of `classad_dependencies` are as wide as an address and declared here as `u64`.
const _: () = assert!(size_of::<usize>() == size_of::<u64>());

extern "C" {
    fn classad_binary(
        first: *const u8,
        first_length: usize,
        second: *const u8,
        second_length: usize,
        kind: u64,
        operands: *const u64,
        operands_length: usize,
        result: *mut u64,
        result_length: usize,
    );
    fn classad_unary(
        kind: u64,
        operands: *const u64,
        operands_length: usize,
        result: *mut u64,
        result_length: usize,
    );
    fn classad_conditional(
        operands: *const u64,
        operands_length: usize,
        result: *mut u64,
        result_length: usize,
    );
    fn classad_real(digits: u64, places: u64, result: *mut u64, result_length: usize);
    fn classad_read(
        text: *const u8,
        text_length: usize,
        words: *mut u64,
        words_length: usize,
        bytes: *mut u8,
        bytes_length: usize,
        answer: *mut [u64; 3],
    );
    fn classad_check(
        words: *const u64,
        words_length: usize,
        bytes: *const u8,
        bytes_length: usize,
        answer: *mut [u64; 4],
    );
    fn classad_print(
        words: *const u64,
        words_length: usize,
        bytes: *const u8,
        bytes_length: usize,
        output: *mut u8,
        output_length: usize,
        answer: *mut [u64; 2],
    );
    fn classad_dependencies(
        first_words: *const u64,
        first_words_length: usize,
        first_bytes: *const u8,
        first_bytes_length: usize,
        second_words: *const u64,
        second_words_length: usize,
        second_bytes: *const u8,
        second_bytes_length: usize,
        flags: *mut u64,
        flags_length: usize,
        list: *mut u64,
        list_length: usize,
        answer: *mut [u64; 3],
    );
    fn classad_match(
        first_words: *const u64,
        first_words_length: usize,
        first_bytes: *const u8,
        first_bytes_length: usize,
        second_words: *const u64,
        second_words_length: usize,
        second_bytes: *const u8,
        second_bytes_length: usize,
        table: *mut u64,
        table_length: usize,
        list: *mut u64,
        list_length: usize,
        budget: u16,
        answer: *mut [u64; 7],
    );
    fn classad_value(
        table: *const u64,
        table_length: usize,
        second: u64,
        node: usize,
        answer: *mut [u64; 4],
    );
    fn classad_string(
        first: *const u8,
        first_length: usize,
        second: *const u8,
        second_length: usize,
        side: u64,
        offset: u16,
        length: u16,
        answer: *mut [u64; 2],
    );
    fn classad_definition(
        words: *const u64,
        words_length: usize,
        node: usize,
        answer: *mut [u64; 4],
    );
    fn classad_expression(
        words: *const u64,
        words_length: usize,
        bytes: *const u8,
        bytes_length: usize,
        node: usize,
        output: *mut u8,
        output_length: usize,
        answer: *mut [u64; 2],
    );
    fn classad_position(text: *const u8, text_length: usize, place: usize, answer: *mut [u64; 2]);
}

/// An operator of two operands, kinds 13 to 27, over slots of two words. The result is slot 0
/// of `result`, blank where the kind is none of these or an operand is blank. `first` and
/// `second` are both ads' bytes, which Strings lie in.
pub fn binary(first: &[u8], second: &[u8], kind: u64, operands: &[u64], result: &mut [u64]) {
    // Safety: each pointer and length are those of one slice; nothing is kept.
    unsafe {
        classad_binary(
            first.as_ptr(),
            first.len(),
            second.as_ptr(),
            second.len(),
            kind,
            operands.as_ptr(),
            operands.len(),
            result.as_mut_ptr(),
            result.len(),
        );
    }
}

/// An operator of one operand, kinds 9 to 11, likewise.
pub fn unary(kind: u64, operands: &[u64], result: &mut [u64]) {
    // Safety: as above.
    unsafe {
        classad_unary(
            kind,
            operands.as_ptr(),
            operands.len(),
            result.as_mut_ptr(),
            result.len(),
        );
    }
}

/// `? :` of three operands, likewise.
pub fn conditional(operands: &[u64], result: &mut [u64]) {
    // Safety: as above.
    unsafe {
        classad_conditional(
            operands.as_ptr(),
            operands.len(),
            result.as_mut_ptr(),
            result.len(),
        );
    }
}

/// The Real of a literal's digits, as one whole number, and how many of them stand after the
/// point; 0.0 where no literal has these numbers.
pub fn real(digits: u64, places: u64, result: &mut [u64]) {
    // Safety: as above.
    unsafe { classad_real(digits, places, result.as_mut_ptr(), result.len()) }
}

/// Reads a text into the memory of an ad: 0, definitions and nodes; or the refusal's number,
/// its place and 0.
pub fn read(text: &[u8], words: &mut [u64], bytes: &mut [u8], answer: &mut [u64; 3]) {
    // Safety: as above.
    unsafe {
        classad_read(
            text.as_ptr(),
            text.len(),
            words.as_mut_ptr(),
            words.len(),
            bytes.as_mut_ptr(),
            bytes.len(),
            answer,
        );
    }
}

/// Checks stored numbers: 0, definitions, nodes and the length of the printed text; or the
/// refusal's number and zeros.
pub fn check(words: &[u64], bytes: &[u8], answer: &mut [u64; 4]) {
    // Safety: as above.
    unsafe {
        classad_check(
            words.as_ptr(),
            words.len(),
            bytes.as_ptr(),
            bytes.len(),
            answer,
        );
    }
}

/// Prints a stored ad into the front of the output: 0 and the text's length; or the refusal's
/// number and 0, and the output stays as it was.
pub fn print(words: &[u64], bytes: &[u8], output: &mut [u8], answer: &mut [u64; 2]) {
    // Safety: as above.
    unsafe {
        classad_print(
            words.as_ptr(),
            words.len(),
            bytes.as_ptr(),
            bytes.len(),
            output.as_mut_ptr(),
            output.len(),
            answer,
        );
    }
}

/// Flags the circular references and lists the evaluation order of two stored ads, given by
/// the words and bytes of both: 0, transitions and the list's length; or the refusal's number
/// and zeros.
pub fn dependencies(
    words: [&[u64]; 2],
    bytes: [&[u8]; 2],
    flags: &mut [u64],
    list: &mut [u64],
    answer: &mut [u64; 3],
) {
    // Safety: as above.
    unsafe {
        classad_dependencies(
            words[0].as_ptr(),
            words[0].len(),
            bytes[0].as_ptr(),
            bytes[0].len(),
            words[1].as_ptr(),
            words[1].len(),
            bytes[1].as_ptr(),
            bytes[1].len(),
            flags.as_mut_ptr(),
            flags.len(),
            list.as_mut_ptr(),
            list.len(),
            answer,
        );
    }
}

/// Matches two stored ads, given by the words and bytes of both: 0, 1 if finished, 1 if
/// matched, both ranks, steps and transitions; or the refusal's number and zeros.
pub fn matching(
    words: [&[u64]; 2],
    bytes: [&[u8]; 2],
    table: &mut [u64],
    list: &mut [u64],
    budget: u16,
    answer: &mut [u64; 7],
) {
    // Safety: as above.
    unsafe {
        classad_match(
            words[0].as_ptr(),
            words[0].len(),
            bytes[0].as_ptr(),
            bytes[0].len(),
            words[1].as_ptr(),
            words[1].len(),
            bytes[1].as_ptr(),
            bytes[1].len(),
            table.as_mut_ptr(),
            table.len(),
            list.as_mut_ptr(),
            list.len(),
            budget,
            answer,
        );
    }
}

/// What a match left in the slot of a node of the first ad, or where `second` is not 0 of
/// the second: its kind and what it carries; zeros where the slot is blank.
pub fn value(table: &[u64], second: u64, node: usize, answer: &mut [u64; 4]) {
    // Safety: as above.
    unsafe { classad_value(table.as_ptr(), table.len(), second, node, answer) }
}

/// Where the bytes of a String value begin in its ad's bytes, and how many there are.
pub fn string(bytes: [&[u8]; 2], side: u64, offset: u16, length: u16, answer: &mut [u64; 2]) {
    // Safety: as above.
    unsafe {
        classad_string(
            bytes[0].as_ptr(),
            bytes[0].len(),
            bytes[1].as_ptr(),
            bytes[1].len(),
            side,
            offset,
            length,
            answer,
        );
    }
}

/// The definition that a node belongs to: 1, its number, and its name's offset and length;
/// zeros where there is none.
pub fn definition(words: &[u64], node: usize, answer: &mut [u64; 4]) {
    // Safety: as above.
    unsafe { classad_definition(words.as_ptr(), words.len(), node, answer) }
}

/// Prints the expression of one node: 0 and the text's length, which is 0 where there is no
/// such node; or the refusal's number and 0.
pub fn expression(
    words: &[u64],
    bytes: &[u8],
    node: usize,
    output: &mut [u8],
    answer: &mut [u64; 2],
) {
    // Safety: as above.
    unsafe {
        classad_expression(
            words.as_ptr(),
            words.len(),
            bytes.as_ptr(),
            bytes.len(),
            node,
            output.as_mut_ptr(),
            output.len(),
            answer,
        );
    }
}

/// The line and the column of a place in a text, both from 1.
pub fn position(text: &[u8], place: usize, answer: &mut [u64; 2]) {
    // Safety: as above.
    unsafe { classad_position(text.as_ptr(), text.len(), place, answer) }
}
