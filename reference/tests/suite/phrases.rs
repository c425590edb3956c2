//! The phrase of every refusal, by its cause, as the table of docs/COMMANDS.md gives it.

use reference::phrase::phrase;
use reference::read::read;
use reference::refusal::{Reason, Refusal};

/// Number, place and phrase of a refused text.
fn refusal(text: &[u8]) -> (usize, usize, &'static str) {
    let refusal = read(text).unwrap_err();
    (refusal.number(), refusal.place, phrase(text, &refusal))
}

fn all(cases: &[(&[u8], usize, usize, &'static str)]) {
    for &(text, number, place, phrase) in cases {
        let shown = String::from_utf8_lossy(text);
        assert_eq!(refusal(text), (number, place, phrase), "{shown:?}");
    }
}

/// The same at the same place, whatever stands behind it.
fn each(texts: &[String], number: usize, place: usize, phrase: &'static str) {
    for text in texts {
        all(&[(text.as_bytes(), number, place, phrase)]);
    }
}

#[test]
fn no_token_starts() {
    let expected = "no token starts here";
    all(&[
        (b"&", 3, 0, expected),
        (b"[a = 1 | 2]", 3, 7, expected),
        (b"[a = \"x\" \\]", 3, 9, expected),
        (b"[a = 1]\n\xFF", 3, 8, expected),
        (b"[a = 'x\"]", 3, 5, expected),
    ]);
}

#[test]
fn bad_byte_in_a_string() {
    let expected = "bad byte in a string";
    for byte in (0x00..0x20).chain(0x7F..=0xFF) {
        let text = [b"[a = \"x", &[byte][..], b"\"]"].concat();
        all(&[(&text, 3, 5, expected)]);
    }
    all(&[
        (b"[a = \"\\n\\\"\\\\\\t\x7F\"]", 3, 5, expected),
        // It comes before a bad escape, and before an end that is not closed.
        (b"[a = \"x\n\\x\"]", 3, 5, expected),
        (b"[a = \"x\ty", 3, 5, expected),
        (b"[a = \"x\r\n", 3, 5, expected),
        (b"[a = \"\x80", 3, 5, expected),
        // Both backslashes are one escape.
        (b"[a = \"\\\\\n\"]", 3, 5, expected),
        (b"[\n\"\n", 3, 2, expected),
    ]);
}

#[test]
fn bad_escape_in_a_string() {
    let expected = "bad escape in a string";
    for byte in 0..=0xFF_u8 {
        if !b"\"\\nt".contains(&byte) {
            let text = [b"[a = \"x\\", &[byte][..], b"\"]"].concat();
            all(&[(&text, 3, 5, expected)]);
        }
    }
    all(&[
        // It comes before a bad byte, and before an end that is not closed.
        (b"[a = \"\\x\n\"]", 3, 5, expected),
        (b"[a = \"\\x\x80", 3, 5, expected),
        (b"[a = \"\\x", 3, 5, expected),
        (b"[a = \"\\N", 3, 5, expected),
        (b"[a = \"\\\\\\x\"]", 3, 5, expected),
        // A bad byte behind a backslash makes a bad escape, which begins before it.
        (b"[a = \"\\\n\"]", 3, 5, expected),
        (b"[a = \"\\\xFF", 3, 5, expected),
    ]);
}

#[test]
fn string_not_closed() {
    let expected = "string not closed";
    all(&[
        (b"\"", 3, 0, expected),
        (b"[a = \"", 3, 5, expected),
        (b"[a = \"x", 3, 5, expected),
        (b"[a = \"x]", 3, 5, expected),
        // A backslash as the last byte stands before no byte.
        (b"[a = \"\\", 3, 5, expected),
        (b"[a = \"x\\n\\", 3, 5, expected),
        (b"[a = \"\\\\", 3, 5, expected),
        // A quote as the last byte: escaped, or opening.
        (b"[a = \"x\\\"", 3, 5, expected),
        (b"[a = \"x\" \"", 3, 9, expected),
        (b"[a = \"x\";\n\"", 3, 10, expected),
        // The quote that looks like its end is escaped.
        (b"[a = \"x\\\"]", 3, 5, expected),
    ]);
    let long = [b"[a=\"".to_vec(), b"s".repeat(1_030)].concat();
    all(&[(&long, 3, 3, expected)]);
}

#[test]
fn what_does_not_fit() {
    let early = "text ends early";
    let misfit = "token does not fit here";
    all(&[
        (b"", 4, 0, early),
        (b" \t\r\n", 4, 4, early),
        (b"[a = 1", 4, 6, early),
        (b"[a = 1\r\n", 4, 8, early),
        (b"[a = other.", 4, 11, early),
        (b"]", 4, 0, misfit),
        (b"[a = 1 2]", 4, 7, misfit),
        (b"[] x", 4, 3, misfit),
        // An Integer and a point, which is not the end of the text.
        (b"[a = 1.", 4, 6, misfit),
        (b"[a = 1.]", 4, 6, misfit),
        (b"[a = 1 .5", 4, 7, misfit),
        (b"[a = 1;;", 4, 7, misfit),
    ]);
}

#[test]
fn numbers() {
    let integer = "Integer over 2,147,483,647";
    let real = "Real over 15 digits";
    all(&[
        (b"[a = 2147483648]", 5, 5, integer),
        (b"2147483648", 5, 0, integer),
        (b"[a = 0002147483648]", 5, 5, integer),
        (b"[a = 99999999999999999999999]", 5, 5, integer),
        // No digit behind the point, or no point behind the digits.
        (b"[a = 2147483648.", 5, 5, integer),
        (b"[a = 2147483648.]", 5, 5, integer),
        (b"[a = 2147483648.x5]", 5, 5, integer),
        (b"[a = 2147483648 .5]", 5, 5, integer),
        (b"[a = 2147483648. 5]", 5, 5, integer),
        (b"[a = 2147483648\n.5]", 5, 5, integer),
        (b"[a = 2147483648 + 0.5]", 5, 5, integer),
        (b"[a = 1.5 < 2147483648]", 5, 11, integer),
        (b"[a = 0.1234567890123456]", 5, 5, real),
        (b"[a = 2147483648.000000]", 5, 5, real),
        (b"[a = 1234567890123456.7]", 5, 5, real),
        // Idle zeros are digits too, on either side.
        (b"[a = 00000000000000001.5]", 5, 5, real),
        (b"[a = 1.500000000000000]", 5, 5, real),
        (b"[a = 000000000000000.0", 5, 5, real),
    ]);
}

#[test]
fn names_and_strings_too_long() {
    let name = "n".repeat(65);
    let string = format!("\"{}\"", "s".repeat(1_025));
    let texts = [
        format!("[{name}=1]"),
        format!("[{name}"),
        format!(" {name}\""),
    ];
    each(&texts, 7, 1, "name over 64 bytes");
    each(
        &[format!("[a = other . {name}\"]")],
        7,
        13,
        "name over 64 bytes",
    );
    let texts = [
        format!("[a = {string}]"),
        format!("[a =\n{string}"),
        format!("[a =\t{string}{name}"),
    ];
    each(&texts, 7, 5, "string over 1,024 bytes");
    // Counted after escapes.
    let escapes = "\\n".repeat(1_025);
    each(
        &[format!("[\"{escapes}\"]")],
        7,
        1,
        "string over 1,024 bytes",
    );
}

#[test]
fn too_many_definitions() {
    let parts: Vec<String> = (0..256).map(|number| format!("d{number}=1")).collect();
    let full = format!("[{}", parts.join(";"));
    for between in [";", "; ", " ;", ";\n", ";\r\n\t ", "\n;\n\n"] {
        let place = full.len() + between.len();
        let texts = [
            format!("{full}{between}more=1]"),
            format!("{full}{between}more"),
            format!("{full}{between}m\n"),
        ];
        each(&texts, 9, place, "over 256 definitions");
    }
}

#[test]
fn too_many_nodes() {
    let expected = "over 1,024 nodes";
    // At an operator, then at operands, where the 512 operators are already counted.
    let sum = format!("[a=-1{}", "+1".repeat(511));
    for blank in ["", " ", "\n", "\r\n\t"] {
        let place = sum.len() + blank.len();
        let texts = ["+1]", "?1:1]", "=?=1]"].map(|next| format!("{sum}{blank}{next}"));
        each(&texts, 9, place, expected);
        let open = format!("[a={}{blank}", "1+".repeat(512));
        let texts = ["1]", "x;", "other.x]", "\";\"]", "!b", "2.5"];
        each(
            &texts.map(|next| format!("{open}{next}")),
            9,
            open.len(),
            expected,
        );
    }
    // The first node of a definition follows its `=`, with a `;` further in front.
    let full = format!("[a=-1{}; b\n=\n", "+1".repeat(511));
    for node in ["c", "other.c", "-1", "\"s\""] {
        each(&[format!("{full}{node}]")], 9, full.len(), expected);
    }
    // A `;` in a string right before an operator is no last byte.
    let string = format!("[a=-1{}+\";\"", "+1".repeat(510));
    each(&[format!("{string}\n+1]")], 9, string.len() + 1, expected);
}

#[test]
fn causes_that_need_no_text() {
    let whole = |reason| phrase(b"", &Refusal::whole(reason));
    assert_eq!(whole(Reason::RoomTooSmall), "memory too small");
    assert_eq!(whole(Reason::TextTooLong), "text over 16,384 bytes");
    assert_eq!(whole(Reason::NotWellFormed), "stored ad is not well formed");
    assert_eq!(
        whole(Reason::PrintTooLong),
        "printed text over 16,384 bytes"
    );
    let deep = format!("[a={}1]", "-".repeat(65));
    all(&[
        (deep.as_bytes(), 6, 67, "nested deeper than level 64"),
        (b"[a=1;\nA=1]", 8, 6, "name defined twice"),
    ]);
    let long = b"[".repeat(16_385);
    all(&[(&long, 2, 0, "text over 16,384 bytes")]);
}
