//! What the operators make of values, against tables written out here.

use crate::{given, shown};
use reference::rng::Rng;
use reference::tree::{BinaryOperator, UnaryOperator};
use reference::value::{binary, conditional, unary, StringValue, Value, NOT_A_NUMBER};

fn string(bytes: &'static [u8]) -> Value<'static> {
    let (side, node) = (0, 0);
    Value::String(StringValue { side, node, bytes })
}

const NAN: f64 = f64::from_bits(NOT_A_NUMBER);

/// Sample values of the kinds, by letter: U, E, B, I, R, S.
fn samples(kind: char) -> Vec<Value<'static>> {
    match kind {
        'U' => vec![Value::Undefined],
        'E' => vec![Value::Error],
        'B' => vec![Value::Boolean(false), Value::Boolean(true)],
        'I' => [0, 1, -1, 7, i32::MAX, i32::MIN]
            .map(Value::Integer)
            .to_vec(),
        'R' => [0.0, -0.0, 1.5, -7.25, f64::INFINITY, NAN]
            .map(Value::Real)
            .to_vec(),
        _ => [&b""[..], b"x", b"One", b"true"].map(string).to_vec(),
    }
}

fn kind(value: Value) -> char {
    value.kind().chars().next().unwrap()
}

const KINDS: [char; 6] = ['U', 'E', 'B', 'I', 'R', 'S'];

/// Checks the kind of every result against rows of letters, one row for each kind of
/// the left operand, one letter for each kind of the right one.
fn check_kinds(operators: &[BinaryOperator], rows: [&str; 6]) {
    for &operator in operators {
        for (row, left_kind) in rows.iter().zip(KINDS) {
            for (expected, right_kind) in row.split(' ').zip(KINDS) {
                for left in samples(left_kind) {
                    for right in samples(right_kind) {
                        let result = binary(operator, left, right);
                        if expected == "I" && is_zero_division(operator, right) {
                            assert_eq!(result, Value::Error);
                            continue;
                        }
                        let case = format!("{left:?} {operator:?} {right:?}");
                        assert_eq!(kind(result).to_string(), expected, "{case}");
                    }
                }
            }
        }
    }
}

fn is_zero_division(operator: BinaryOperator, right: Value) -> bool {
    let divides = matches!(operator, BinaryOperator::Divide | BinaryOperator::Remainder);
    divides && right == Value::Integer(0)
}

const ARITHMETIC: [BinaryOperator; 5] = [
    BinaryOperator::Add,
    BinaryOperator::Subtract,
    BinaryOperator::Multiply,
    BinaryOperator::Divide,
    BinaryOperator::Remainder,
];

const COMPARISON: [BinaryOperator; 6] = [
    BinaryOperator::Equal,
    BinaryOperator::NotEqual,
    BinaryOperator::Less,
    BinaryOperator::LessOrEqual,
    BinaryOperator::Greater,
    BinaryOperator::GreaterOrEqual,
];

#[test]
fn kinds_of_arithmetic() {
    check_kinds(
        &ARITHMETIC,
        [
            "U E E U U E",
            "E E E E E E",
            "E E E E E E",
            "U E E I R E",
            "U E E R R E",
            "E E E E E E",
        ],
    );
}

#[test]
fn kinds_of_comparison() {
    check_kinds(
        &COMPARISON,
        [
            "U E E U U U",
            "E E E E E E",
            "E E E E E E",
            "U E E B B E",
            "U E E B B E",
            "U E E E E B",
        ],
    );
}

#[test]
fn kinds_of_is_and_isnt() {
    check_kinds(
        &[BinaryOperator::Is, BinaryOperator::Isnt],
        ["B B B B B B"; 6],
    );
}

#[test]
fn kinds_of_unary_plus_and_minus() {
    for operator in [UnaryOperator::Plus, UnaryOperator::Minus] {
        for (expected, operand_kind) in "U E E I R E".split(' ').zip(KINDS) {
            for operand in samples(operand_kind) {
                let result = unary(operator, operand);
                assert_eq!(
                    kind(result).to_string(),
                    expected,
                    "{operator:?} {operand:?}"
                );
            }
        }
    }
}

// Logic.

/// Values by the letters of document 01's tables: F, U, T, O.
fn truths(letter: char) -> Vec<Value<'static>> {
    match letter {
        'F' => vec![Value::Boolean(false)],
        'U' => vec![Value::Undefined],
        'T' => vec![Value::Boolean(true)],
        _ => ["E", "I", "R", "S"]
            .iter()
            .flat_map(|k| samples(k.chars().next().unwrap()))
            .collect(),
    }
}

fn letter(value: Value) -> &'static str {
    match value {
        Value::Boolean(false) => "F",
        Value::Undefined => "U",
        Value::Boolean(true) => "T",
        Value::Error => "E",
        _ => "other",
    }
}

fn check_logic(operator: BinaryOperator, rows: [&str; 4]) {
    for (row, left_letter) in rows.iter().zip("FUTO".chars()) {
        for (expected, right_letter) in row.split(' ').zip("FUTO".chars()) {
            for left in truths(left_letter) {
                for right in truths(right_letter) {
                    let result = binary(operator, left, right);
                    assert_eq!(letter(result), expected, "{left:?} {operator:?} {right:?}");
                }
            }
        }
    }
}

#[test]
fn table_of_and() {
    check_logic(
        BinaryOperator::And,
        ["F F F F", "F U U E", "F U T E", "E E E E"],
    );
}

#[test]
fn table_of_or() {
    check_logic(
        BinaryOperator::Or,
        ["F U T E", "U U T E", "T T T T", "E E E E"],
    );
}

#[test]
fn table_of_not() {
    for (operand_letter, expected) in "FUTO".chars().zip(["T", "U", "F", "E"]) {
        for operand in truths(operand_letter) {
            assert_eq!(
                letter(unary(UnaryOperator::Not, operand)),
                expected,
                "{operand:?}"
            );
        }
    }
}

#[test]
fn table_of_the_conditional() {
    let (second, third) = (Value::Integer(2), Value::Integer(3));
    let expected = [third, Value::Undefined, second, Value::Error];
    for (condition_letter, expected) in "FUTO".chars().zip(expected) {
        for condition in truths(condition_letter) {
            assert_eq!(
                conditional(condition, second, third),
                expected,
                "{condition:?}"
            );
        }
    }
    // The arm not taken has no say.
    let error = Value::Error;
    assert_eq!(conditional(Value::Boolean(true), second, error), second);
    assert_eq!(conditional(Value::Boolean(false), error, third), third);
    assert_eq!(
        conditional(Value::Undefined, error, error),
        Value::Undefined
    );
}

// Integers.

/// The number between -2^31 and 2^31 - 1 that differs from this by a multiple of 2^32.
fn wrapped(exact: i64) -> i32 {
    let rest = exact.rem_euclid(1 << 32);
    (if rest >= 1 << 31 {
        rest - (1 << 32)
    } else {
        rest
    }) as i32
}

fn expected_integer(operator: BinaryOperator, left: i64, right: i64) -> Value<'static> {
    let quotient = |left: i64, right: i64| {
        let size = left.abs() / right.abs();
        if (left < 0) == (right < 0) {
            size
        } else {
            -size
        }
    };
    Value::Integer(wrapped(match operator {
        BinaryOperator::Add => left + right,
        BinaryOperator::Subtract => left - right,
        BinaryOperator::Multiply => left * right,
        _ if right == 0 => return Value::Error,
        BinaryOperator::Divide => quotient(left, right),
        _ => left - right * quotient(left, right),
    }))
}

fn check_integers(left: i32, right: i32) {
    for operator in ARITHMETIC {
        let result = binary(operator, Value::Integer(left), Value::Integer(right));
        let expected = expected_integer(operator, left.into(), right.into());
        assert_eq!(result, expected, "{left} {operator:?} {right}");
    }
    let order = i64::from(left) - i64::from(right);
    let expected = [
        order == 0,
        order != 0,
        order < 0,
        order <= 0,
        order > 0,
        order >= 0,
    ];
    for (operator, expected) in COMPARISON.into_iter().zip(expected) {
        let result = binary(operator, Value::Integer(left), Value::Integer(right));
        assert_eq!(
            result,
            Value::Boolean(expected),
            "{left} {operator:?} {right}"
        );
    }
    let minus = unary(UnaryOperator::Minus, Value::Integer(left));
    assert_eq!(minus, Value::Integer(wrapped(-i64::from(left))));
    assert_eq!(
        unary(UnaryOperator::Plus, Value::Integer(left)),
        Value::Integer(left)
    );
}

#[test]
fn integers() {
    let edges = [
        0, 1, -1, 2, -2, 3, -3, 7, -7, 46_340, 46_341, -46_341, 65_536,
    ];
    let edges = [
        &edges[..],
        &[i32::MAX, i32::MIN, i32::MAX - 1, i32::MIN + 1],
    ]
    .concat();
    for &left in &edges {
        for &right in &edges {
            check_integers(left, right);
        }
    }
    let mut rng = Rng::new(31);
    for _ in 0..20_000 {
        let left = rng.bits() as i32;
        let right = (rng.bits() as i32) >> rng.below(32);
        check_integers(left, right);
    }
}

// Strings.

#[test]
fn strings_compare_without_case() {
    // Each smaller than the next, after ASCII lower case.
    let rising: [&[u8]; 14] = [
        b"", b"\t", b"\n", b" ", b"0", b"@", b"[", b"_", b"A", b"a ", b"aA", b"AB", b"b", b"~",
    ];
    for (place, &left) in rising.iter().enumerate() {
        for (other_place, &right) in rising.iter().enumerate() {
            check_strings(left, right, place.cmp(&other_place));
        }
    }
    check_strings(b"One", b"oNE", std::cmp::Ordering::Equal);
    check_strings(b"ONE", b"ones", std::cmp::Ordering::Less);
    check_strings(b"[", b"{", std::cmp::Ordering::Less);
    check_strings(b"@", b"`", std::cmp::Ordering::Less);
}

fn check_strings(left: &'static [u8], right: &'static [u8], order: std::cmp::Ordering) {
    let expected = [
        order.is_eq(),
        order.is_ne(),
        order.is_lt(),
        order.is_le(),
        order.is_gt(),
        order.is_ge(),
    ];
    for (operator, expected) in COMPARISON.into_iter().zip(expected) {
        let result = binary(operator, string(left), string(right));
        assert_eq!(
            result,
            Value::Boolean(expected),
            "{left:?} {operator:?} {right:?}"
        );
    }
}

// Sameness.

#[test]
fn is_and_isnt() {
    let mut all: Vec<Value> = KINDS.iter().flat_map(|&kind| samples(kind)).collect();
    all.extend([
        string(b"one"),
        string(b"ONE"),
        Value::Real(1.0),
        Value::Real(7.0),
    ]);
    for (left_place, &left) in all.iter().enumerate() {
        for (right_place, &right) in all.iter().enumerate() {
            // All samples differ but for the two zeros; not-a-number is not itself.
            let zeros = [left, right]
                .iter()
                .all(|value| matches!(value, Value::Real(0.0)));
            let not_a_number = matches!(left, Value::Real(number) if number != number);
            let expected = (left_place == right_place && !not_a_number) || zeros;
            let is = binary(BinaryOperator::Is, left, right);
            assert_eq!(is, Value::Boolean(expected), "{left:?} is {right:?}");
            let isnt = binary(BinaryOperator::Isnt, left, right);
            assert_eq!(isnt, Value::Boolean(!expected), "{left:?} isnt {right:?}");
        }
    }
    // Equal strings from different literals are the same.
    let mine = StringValue {
        side: 0,
        node: 1,
        bytes: b"x",
    };
    let theirs = StringValue {
        side: 1,
        node: 7,
        bytes: b"x",
    };
    let is = binary(
        BinaryOperator::Is,
        Value::String(mine),
        Value::String(theirs),
    );
    assert_eq!(is, Value::Boolean(true));
}

// From texts.

#[test]
fn from_texts() {
    let cases = [
        ("undefined == \"x\"", "undefined"),
        ("undefined < 1", "undefined"),
        ("undefined == true", "error"),
        ("true == true", "error"),
        ("true is true", "true"),
        ("1 == \"1\"", "error"),
        ("error is error", "true"),
        ("error isnt undefined", "true"),
        ("undefined is undefined", "true"),
        ("error == undefined", "error"),
        ("1 == 1.0", "true"),
        ("0.0 is -0.0", "true"),
        ("0.0/0.0 is 0.0/0.0", "false"),
        ("0.0/0.0 != 0.0/0.0", "true"),
        ("0.0/0.0", "0x7ff8000000000000"),
        ("-(0.0/0.0)", "0x7ff8000000000000"),
        ("+(0.0/0.0)", "0x7ff8000000000000"),
        ("1/0.0", "0x7ff0000000000000"),
        ("-1/0.0", "0xfff0000000000000"),
        ("1.0%0", "0x7ff8000000000000"),
        ("-0.0", "0x8000000000000000"),
        ("0 * -1.0", "0x8000000000000000"),
        ("3 + 0.5", "0x400c000000000000"),
        ("-7.5 % 2", "0xbff8000000000000"),
        ("0.1", "0x3fb999999999999a"),
        ("-2147483647 - 1", "-2147483648"),
        ("(-2147483647 - 1) / -1", "-2147483648"),
        ("(-2147483647 - 1) % -1", "0"),
        ("-(-2147483647 - 1)", "-2147483648"),
        ("65536 * 65536", "0"),
        ("46341 * 46341", "-2147479015"),
        ("-7 / 2", "-3"),
        ("7 % -3", "1"),
        ("0 % 0", "error"),
        ("-true", "error"),
        ("+\"x\"", "error"),
        ("-undefined", "undefined"),
        ("!1", "error"),
        ("true ? \"yes\" : error", "\"yes\""),
        ("1 ? 2 : 3", "error"),
        ("undefined ? 2 : 3", "undefined"),
        ("missing", "undefined"),
        ("other.missing", "undefined"),
        ("2147483647 == 2147483647.0", "true"),
        ("\"a\\n\" < \"A\\t\"", "false"),
    ];
    for (text, expected) in cases {
        assert_eq!(given(text), expected, "{text}");
    }
}

#[test]
fn not_a_number_is_kept_as_one() {
    let odd = f64::from_bits(0xFFF0_0000_0000_0001);
    assert_eq!(shown(Value::real(odd)), "0x7ff8000000000000");
}
