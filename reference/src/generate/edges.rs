//! Inputs at every bound and one beyond each, with what must come of them.

use super::ads;
use super::spelling::put_blanks;
use crate::bounds;
use crate::refusal::{Reason, Refusal};
use crate::rng::Rng;
use crate::tree::{Ad, BinaryOperator, Definition, Expression, Literal, Scope, UnaryOperator};

/// A text and its refusal, none if it is accepted.
pub struct EdgeText {
    pub label: &'static str,
    pub text: Vec<u8>,
    pub expected: Option<Refusal>,
}

/// A tree and whether it is well formed.
pub struct EdgeTree {
    pub label: &'static str,
    pub ad: Ad,
    pub well_formed: bool,
}

pub fn edge_texts(rng: &mut Rng) -> Vec<EdgeText> {
    let mut texts = Vec::new();
    text_length(rng, &mut texts);
    definition_count(&mut texts);
    node_count(&mut texts);
    name_length(&mut texts);
    string_length(rng, &mut texts);
    levels(rng, &mut texts);
    numbers(&mut texts);
    texts
}

fn accept(texts: &mut Vec<EdgeText>, label: &'static str, text: impl Into<Vec<u8>>) {
    let text = text.into();
    let expected = None;
    texts.push(EdgeText {
        label,
        text,
        expected,
    });
}

fn refuse(
    texts: &mut Vec<EdgeText>,
    label: &'static str,
    reason: Reason,
    place: usize,
    text: impl Into<Vec<u8>>,
) {
    let text = text.into();
    let expected = Some(Refusal::at(reason, place));
    texts.push(EdgeText {
        label,
        text,
        expected,
    });
}

// Text length.

fn text_length(rng: &mut Rng, texts: &mut Vec<EdgeText>) {
    let label = "text length in blanks";
    accept(texts, label, blank_text(rng, bounds::TEXT_BYTES));
    let beyond = blank_text(rng, bounds::TEXT_BYTES + 1);
    refuse(texts, label, Reason::TextTooLong, 0, beyond);
    let label = "text length in strings";
    accept(texts, label, string_text(bounds::TEXT_BYTES));
    let beyond = string_text(bounds::TEXT_BYTES + 1);
    refuse(texts, label, Reason::TextTooLong, 0, beyond);
    let label = "text length before a bad token";
    let bad = vec![b'~'; bounds::TEXT_BYTES + 1];
    refuse(texts, label, Reason::TextTooLong, 0, bad);
    let label = "text length of a bad token";
    let bad = vec![b'~'; bounds::TEXT_BYTES];
    refuse(texts, label, Reason::BadToken, 0, bad);
    let label = "text length of blanks alone";
    let blanks = vec![b' '; bounds::TEXT_BYTES];
    refuse(texts, label, Reason::DoesNotFit, bounds::TEXT_BYTES, blanks);
}

/// `[a=1]` with so many blanks between its tokens that it has this length.
fn blank_text(rng: &mut Rng, length: usize) -> Vec<u8> {
    let tokens: [&[u8]; 5] = [b"[", b"a", b"=", b"1", b"]"];
    let mut blanks = length - tokens.len();
    let mut text = Vec::new();
    for token in tokens {
        let count = rng.below(blanks + 1);
        put_blanks(rng, count, &mut text);
        blanks -= count;
        text.extend(token);
    }
    put_blanks(rng, blanks, &mut text);
    text
}

/// Definitions `a00="xx...";` that fill this length.
fn string_text(length: usize) -> Vec<u8> {
    let mut text = b"[".to_vec();
    let mut number = 10;
    while length - text.len() > 1_007 {
        text.extend(format!("a{number}=\"{}\";", "x".repeat(500)).as_bytes());
        number += 1;
    }
    let rest = length - text.len() - "b=\"\"]".len();
    text.extend(format!("b=\"{}\"]", "y".repeat(rest)).as_bytes());
    text
}

// Definitions.

fn definitions_text(count: usize) -> String {
    let parts: Vec<String> = (0..count)
        .map(|number| format!("d{number}={number}"))
        .collect();
    format!("[{}", parts.join(";"))
}

fn definition_count(texts: &mut Vec<EdgeText>) {
    let label = "definitions";
    let full = definitions_text(bounds::DEFINITIONS);
    accept(texts, label, format!("{full}]"));
    accept(texts, label, format!("{full};]"));
    let place = full.len() + 1;
    refuse(
        texts,
        label,
        Reason::TooMany,
        place,
        format!("{full};more=1]"),
    );
    let label = "name defined twice";
    accept(texts, label, "[ab=1;a=2;abc=3;_ab=4]");
    refuse(texts, label, Reason::DefinedTwice, 6, "[ab=1;ab=2]");
    refuse(texts, label, Reason::DefinedTwice, 10, "[aB=1;c=2;Ab=3]");
    refuse(texts, label, Reason::DefinedTwice, 6, "[_Z=1;_z &");
    let label = "definition beyond the bound defined before";
    refuse(
        texts,
        label,
        Reason::DefinedTwice,
        place,
        format!("{full};D255=1]"),
    );
    let label = "definition beyond the bound with a reserved name";
    refuse(
        texts,
        label,
        Reason::DoesNotFit,
        place,
        format!("{full};Is=1]"),
    );
    let label = "definition beyond the bound without a value";
    refuse(texts, label, Reason::TooMany, place, format!("{full};more"));
    let label = "definition beyond the bound with too long a name";
    let long = "n".repeat(bounds::NAME_BYTES + 1);
    refuse(
        texts,
        label,
        Reason::TokenTooLong,
        place,
        format!("{full};{long}=1]"),
    );
}

// Nodes.

fn node_count(texts: &mut Vec<EdgeText>) {
    // 512 operands and 511 operators behind one unary operator: 1,024 nodes.
    let full = format!("[a=-1{}", "+1".repeat(511));
    accept(texts, "nodes", format!("{full}]"));
    for next in ["+1", "is 1", "=?=1", "?1:1", "&&true"] {
        let text = format!("{full} {next}]");
        refuse(
            texts,
            "node beyond at an operator",
            Reason::TooMany,
            full.len() + 1,
            text,
        );
    }
    // 512 operands and 512 operators: the next operand is one too many.
    let open = format!("[a={}", "1+".repeat(512));
    for next in [
        "1",
        "2.5",
        "\"s\"",
        "true",
        "undefined",
        "x",
        "other.x",
        "other",
        "-1",
        "!b",
    ] {
        let text = format!("{open}{next}]");
        refuse(
            texts,
            "node beyond at an operand",
            Reason::TooMany,
            open.len(),
            text,
        );
    }
    let text = format!("{open}(1)]");
    refuse(
        texts,
        "node beyond in parentheses",
        Reason::TooMany,
        open.len() + 1,
        text,
    );
    let text = format!("{open})]");
    refuse(
        texts,
        "bound of nodes, then a misfit",
        Reason::DoesNotFit,
        open.len(),
        text,
    );
    // Four nodes in each of 256 definitions.
    let parts: Vec<String> = (0..256).map(|number| format!("d{number}=-1+1")).collect();
    let spread = format!("[{}", parts.join(";"));
    accept(texts, "nodes in all definitions", format!("{spread}]"));
    let text = format!("{spread}*x]");
    refuse(
        texts,
        "node beyond in the last definition",
        Reason::TooMany,
        spread.len(),
        text,
    );
    // Level 65 and the 1,025th node at one unary operator: 6 comes before 9.
    let deep = format!("[a={}{}", "1+".repeat(480), "-".repeat(64));
    let text = format!("{deep}-1]");
    refuse(
        texts,
        "level and node beyond at once",
        Reason::TooDeep,
        deep.len(),
        text,
    );
}

// Names.

fn name_length(texts: &mut Vec<EdgeText>) {
    let fits = "n".repeat(bounds::NAME_BYTES);
    let long = "N".repeat(bounds::NAME_BYTES + 1);
    accept(texts, "name of a definition", format!("[{fits}=1]"));
    refuse(
        texts,
        "name of a definition",
        Reason::TokenTooLong,
        1,
        format!("[{long}=1]"),
    );
    accept(texts, "name of a reference", format!("[a={fits}]"));
    refuse(
        texts,
        "name of a reference",
        Reason::TokenTooLong,
        3,
        format!("[a={long}]"),
    );
    accept(texts, "name in the other ad", format!("[a=other.{fits}]"));
    let text = format!("[a=other . {long}]");
    refuse(
        texts,
        "name in the other ad",
        Reason::TokenTooLong,
        11,
        text,
    );
    let text = format!("[a=1 {long}]");
    refuse(
        texts,
        "too long a name in no place for one",
        Reason::TokenTooLong,
        5,
        text,
    );
}

// Strings.

fn string_length(rng: &mut Rng, texts: &mut Vec<EdgeText>) {
    let plain = "s".repeat(bounds::STRING_BYTES);
    accept(texts, "string", format!("[a=\"{plain}\"]"));
    refuse(
        texts,
        "string",
        Reason::TokenTooLong,
        3,
        format!("[a=\"{plain}s\"]"),
    );
    let escapes: String = (0..bounds::STRING_BYTES)
        .map(|_| *rng.pick(&["\\n", "\\t", "\\\\", "\\\"", "x"]))
        .collect();
    accept(texts, "string of escapes", format!("[a=\"{escapes}\"]"));
    let text = format!("[a=\"{escapes}\\n\"]");
    refuse(texts, "string of escapes", Reason::TokenTooLong, 3, text);
    let text = format!("[a=\"{plain}ss\\x\"]");
    refuse(
        texts,
        "string both too long and bad",
        Reason::BadToken,
        3,
        text,
    );
    let text = format!("[a=\"{plain}ss");
    refuse(
        texts,
        "string both too long and not closed",
        Reason::BadToken,
        3,
        text,
    );
}

// Levels.

/// What goes one level deeper, with what must stand behind the inside.
const OPENERS: [(&str, &str); 6] = [
    ("(", ")"),
    ("-", ""),
    ("!", ""),
    ("+", ""),
    ("1?", ":1"),
    ("1?1:", ""),
];

fn levels(rng: &mut Rng, texts: &mut Vec<EdgeText>) {
    for opener in OPENERS {
        level_pair(texts, "level of one kind", &mut || opener);
    }
    for _ in 0..4 {
        let mut unary = false;
        level_pair(texts, "level of mixed kinds", &mut || {
            // A conditional cannot be the operand of a unary operator.
            let choice = rng.below(if unary { 4 } else { 6 });
            unary = (1..4).contains(&choice);
            OPENERS[choice]
        });
    }
}

/// A text of level 64, and the same with one opener more inside.
fn level_pair(
    texts: &mut Vec<EdgeText>,
    label: &'static str,
    choose: &mut dyn FnMut() -> (&'static str, &'static str),
) {
    let mut front = "[a=".to_string();
    let mut back = "]".to_string();
    for _ in 0..bounds::LEVEL {
        let (open, close) = choose();
        front.push_str(open);
        back.insert_str(0, close);
    }
    accept(texts, label, format!("{front}1{back}"));
    let (open, close) = choose();
    // The refusal stands at the `?`, `(` or unary operator of the opener.
    let place = front.len() + open.find('?').unwrap_or(0);
    let text = format!("{front}{open}1{close}{back}");
    refuse(texts, label, Reason::TooDeep, place, text);
}

// Numbers.

fn numbers(texts: &mut Vec<EdgeText>) {
    let over = Reason::NumberTooLarge;
    accept(texts, "Integer", "[a=2147483647]");
    refuse(texts, "Integer", over, 3, "[a=2147483648]");
    accept(texts, "Integer with idle zeros", "[a=00000000002147483647]");
    refuse(
        texts,
        "Integer with idle zeros",
        over,
        3,
        "[a=00000000002147483648]",
    );
    let text = format!("[a=1+{}]", "9".repeat(400));
    refuse(texts, "Integer of 400 digits", over, 5, text);
    accept(texts, "Real, digits before", "[a=99999999999999.9]");
    refuse(
        texts,
        "Real, digits before",
        over,
        3,
        "[a=999999999999999.9]",
    );
    accept(texts, "Real, digits after", "[a=0.00000000000001]");
    refuse(
        texts,
        "Real, digits after",
        over,
        3,
        "[a=0.000000000000001]",
    );
    accept(texts, "Real with idle zeros", "[a=00000.0000000000]");
    refuse(
        texts,
        "Real with idle zeros",
        over,
        3,
        "[a=000000.0000000000]",
    );
    refuse(
        texts,
        "number in no place for one",
        over,
        3,
        "[a 2147483648]",
    );
}

// Trees.

pub fn edge_trees() -> Vec<EdgeTree> {
    let mut trees = Vec::new();
    let mut put = |label, ad, well_formed| {
        trees.push(EdgeTree {
            label,
            ad,
            well_formed,
        })
    };
    put("no definition", Ad::default(), true);
    put("nodes", one(chain(512, true)), true);
    put("nodes beyond", one(chain(513, false)), false);
    put("definitions", many(bounds::DEFINITIONS), true);
    put("definitions beyond", many(bounds::DEFINITIONS + 1), false);
    put("names and strings", stored(1_023), true);
    put("names and strings beyond", stored(1_024), false);
    for (label, name, fine) in names() {
        put(label, named(&name), fine);
        put(
            label,
            one(Expression::Reference(Scope::Own, name.clone())),
            fine,
        );
        put(label, one(Expression::Reference(Scope::Other, name)), fine);
    }
    put("names that differ in case", twice("Ab", "aB"), false);
    put("names that differ", twice("ab", "ac"), true);
    put("Integer", one(ads::integer(2_147_483_647)), true);
    put("Integer beyond", one(ads::integer(2_147_483_648)), false);
    for (digits, places, fine) in REALS {
        put(
            "Real",
            one(Expression::Literal(Literal::Real { digits, places })),
            fine,
        );
    }
    put("string", one(ads::string(&[b's'; 1_024])), true);
    put("string beyond", one(ads::string(&[b's'; 1_025])), false);
    for byte in [b'\t', b'\n', b' ', b'"', b'\\', b'~'] {
        put("byte in a string", one(ads::string(&[b'a', byte])), true);
    }
    for byte in [0, 1, 8, 11, b'\r', 0x1F, 0x7F, 0x80, 0xFF] {
        put(
            "bad byte in a string",
            one(ads::string(&[b'a', byte])),
            false,
        );
    }
    for kind in 0..NESTINGS {
        put("level", one(nested(kind, bounds::LEVEL)), true);
        put("level beyond", one(nested(kind, bounds::LEVEL + 1)), false);
    }
    trees
}

/// Digits, places, and whether 15 digits with one before the point can give them.
const REALS: [(u64, u32, bool); 9] = [
    (0, 1, true),
    (5, 0, false),
    (999_999_999_999_999, 1, true),
    (1_000_000_000_000_000, 1, false),
    (999_999_999_999_999, 14, true),
    (1_000_000_000_000_000, 14, false),
    (1, 14, true),
    (1, 15, false),
    (u64::MAX, 7, false),
];

fn names() -> Vec<(&'static str, Vec<u8>, bool)> {
    vec![
        ("name", vec![b'n'; 64], true),
        ("name beyond", vec![b'n'; 65], false),
        ("name of one letter", b"_".to_vec(), true),
        ("name with digits", b"Z09_z".to_vec(), true),
        ("empty name", b"".to_vec(), false),
        ("name that starts with a digit", b"1a".to_vec(), false),
        ("name with a blank", b"a b".to_vec(), false),
        ("name with a byte beyond ASCII", b"a\xE4".to_vec(), false),
        ("name with a zero", b"a\0".to_vec(), false),
        ("reserved name true", b"True".to_vec(), false),
        ("reserved name false", b"FALSE".to_vec(), false),
        ("reserved name undefined", b"undefined".to_vec(), false),
        ("reserved name error", b"erroR".to_vec(), false),
        ("reserved name is", b"is".to_vec(), false),
        ("reserved name isnt", b"IsNt".to_vec(), false),
        ("reserved name parent", b"parent".to_vec(), false),
        ("reserved name other", b"Other".to_vec(), false),
    ]
}

fn one(expression: Expression) -> Ad {
    named_expression(b"a", expression)
}

fn named(name: &[u8]) -> Ad {
    named_expression(name, ads::integer(1))
}

fn named_expression(name: &[u8], expression: Expression) -> Ad {
    let name = name.to_vec();
    Ad {
        definitions: vec![Definition { name, expression }],
    }
}

fn many(count: usize) -> Ad {
    let number = |number| ads::definition(&format!("d{number}"), ads::integer(0));
    Ad {
        definitions: (0..count).map(number).collect(),
    }
}

fn twice(first: &str, second: &str) -> Ad {
    Ad {
        definitions: vec![
            ads::definition(first, ads::integer(1)),
            ads::definition(second, ads::integer(2)),
        ],
    }
}

/// A sum of so many ones, grouped to the left, perhaps with a unary operator at its
/// far left: that makes 2 * terms - 1 nodes, or one more.
fn chain(terms: usize, signed: bool) -> Expression {
    let mut sum = ads::integer(1);
    if signed {
        sum = ads::unary(UnaryOperator::Minus, sum);
    }
    for _ in 1..terms {
        sum = ads::binary(BinaryOperator::Add, sum, ads::integer(1));
    }
    sum
}

/// Sixteen definitions with names of one byte and strings of 1,023 bytes are 16,384
/// bytes of names and strings; the last string's length is given.
fn stored(last: usize) -> Ad {
    let number = |index: u8| {
        let length = if index == 15 { last } else { 1_023 };
        let name = char::from(b'a' + index).to_string();
        ads::definition(&name, ads::string(&vec![b's'; length]))
    };
    Ad {
        definitions: (0..16).map(number).collect(),
    }
}

const NESTINGS: usize = 6;

/// A tree whose printed text has this deepest level.
fn nested(kind: usize, level: usize) -> Expression {
    let one = || ads::integer(1);
    if level == 0 {
        return if kind == 1 { chain(2, false) } else { one() };
    }
    match kind {
        // Each in a unary operator.
        0 => ads::unary(UnaryOperator::Not, nested(kind, level - 1)),
        // Each in parentheses, as the right side of a sum.
        1 => ads::binary(BinaryOperator::Add, one(), nested(kind, level - 1)),
        // The second arm, the third arm.
        2 => ads::conditional(one(), nested(kind, level - 1), one()),
        3 => ads::conditional(one(), one(), nested(kind, level - 1)),
        // The condition, each in parentheses; its own arms make the last level.
        4 => ads::conditional(nested(kind, level - 1), one(), one()),
        // A sum below a unary operator takes two levels, the last one alone.
        _ if level == 1 => ads::unary(UnaryOperator::Minus, one()),
        _ => {
            let inside = nested(kind, level - 2);
            let sum = ads::binary(BinaryOperator::Add, inside, one());
            ads::unary(UnaryOperator::Minus, sum)
        }
    }
}

/// A well-formed ad whose printed text has this length, at least 20.
pub fn ad_of_printed_length(length: usize) -> Ad {
    let mut ad = Ad::default();
    // A definition `aNN = "..."` has 8 bytes beside the string, and 2 join it to the
    // one before; the first has none before, so the brackets are just as many.
    let mut left = length;
    for number in 10.. {
        let content = if left > 1_000 { 500 } else { left - 10 };
        let string = ads::string(&vec![b'p'; content]);
        ad.definitions
            .push(ads::definition(&format!("a{number}"), string));
        left -= content + 10;
        if left == 0 {
            break;
        }
    }
    ad
}
