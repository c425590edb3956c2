//! Pairs made for matching: both ads mostly have Requirements that ask for attributes of
//! the other, and a Rank. Attributes are typed, so that many pairs match; they are literals,
//! names of either ad in any case, missing ones, loops within an ad and across both, and
//! some that nothing needs.

use super::ads::{
    binary, boolean, conditional, definition, integer, odd_case, other, own, string, unary,
};
use crate::rng::Rng;
use crate::tree::{Ad, BinaryOperator, Expression, Literal, UnaryOperator};

const NUMBERS: [&str; 5] = ["Memory", "Cpus", "Disk", "LoadAvg", "PulseWidth"];
const STRINGS: [&str; 4] = ["Arch", "OpSys", "Owner", "Type"];
const TRUTHS: [&str; 4] = ["Ready", "HasGpu", "Idle", "Trusted"];

/// What the Strings are drawn from; many are equal but for case.
const CONTENTS: [&[u8]; 8] = [
    b"X86_64", b"x86_64", b"LINUX", b"Linux", b"linux6", b"ann", b"Ann", b"",
];

const ORDER: [BinaryOperator; 6] = [
    BinaryOperator::GreaterOrEqual,
    BinaryOperator::Greater,
    BinaryOperator::NotEqual,
    BinaryOperator::Equal,
    BinaryOperator::Less,
    BinaryOperator::LessOrEqual,
];

const ARITHMETIC: [BinaryOperator; 5] = [
    BinaryOperator::Add,
    BinaryOperator::Subtract,
    BinaryOperator::Multiply,
    BinaryOperator::Divide,
    BinaryOperator::Remainder,
];

pub fn match_pair(rng: &mut Rng) -> (Ad, Ad) {
    (matching_ad(rng), matching_ad(rng))
}

pub fn matching_ad(rng: &mut Rng) -> Ad {
    let most = rng.between(30, 100);
    let mut parts: Vec<(&str, Expression)> = Vec::new();
    if rng.chance(94) {
        parts.push(("Requirements", requirements(rng)));
    }
    if rng.chance(85) {
        parts.push(("Rank", rank(rng)));
    }
    for name in NUMBERS {
        if rng.chance(most) {
            parts.push((name, number(rng, 2)));
        }
    }
    for name in STRINGS {
        if rng.chance(most) {
            parts.push((name, string_attribute(rng)));
        }
    }
    for name in TRUTHS {
        if rng.chance(most) {
            parts.push((name, truth(rng, 2)));
        }
    }
    let mut ad = Ad::default();
    while !parts.is_empty() {
        let (name, expression) = parts.swap_remove(rng.below(parts.len()));
        let name = odd_case(rng, name);
        ad.definitions.push(definition(&name, expression));
    }
    ad
}

/// A name of either ad, in any case; at times one that is nowhere.
fn reference(rng: &mut Rng, names: &[&str], others: usize) -> Expression {
    let name = if rng.chance(3) {
        "Missing"
    } else {
        *rng.pick(names)
    };
    let name = odd_case(rng, name);
    if rng.chance(others) {
        other(&name)
    } else {
        own(&name)
    }
}

// Attributes.

fn literal_number(rng: &mut Rng) -> Expression {
    match rng.below(10) {
        0 => Expression::Literal(Literal::Real {
            digits: rng.below(1_000) as u64,
            places: rng.between(1, 3) as u32,
        }),
        1 => integer(rng.below(1 << 31) as u32),
        2 => integer(*rng.pick(&[0, 2_147_483_647, 65_536])),
        _ => integer(rng.between(1, 64) as u32),
    }
}

fn number(rng: &mut Rng, depth: usize) -> Expression {
    match rng.below(10) {
        _ if depth == 0 => literal_number(rng),
        0..=5 => literal_number(rng),
        6 => reference(rng, &NUMBERS, 40),
        7 => {
            let operator = *rng.pick(&ARITHMETIC);
            binary(
                operator,
                reference(rng, &NUMBERS, 30),
                number(rng, depth - 1),
            )
        }
        8 => conditional(
            truth(rng, depth - 1),
            number(rng, depth - 1),
            number(rng, depth - 1),
        ),
        _ => unary(UnaryOperator::Minus, number(rng, depth - 1)),
    }
}

fn string_attribute(rng: &mut Rng) -> Expression {
    match rng.below(10) {
        0 => reference(rng, &STRINGS, 50),
        1 => conditional(
            truth(rng, 1),
            reference(rng, &STRINGS, 70),
            string(rng.pick::<&[u8]>(&CONTENTS)),
        ),
        _ => string(rng.pick::<&[u8]>(&CONTENTS)),
    }
}

fn truth(rng: &mut Rng, depth: usize) -> Expression {
    match rng.below(10) {
        _ if depth == 0 => boolean(rng.chance(80)),
        0..=4 => boolean(rng.chance(80)),
        5 => is_undefined(rng),
        6 => reference(rng, &TRUTHS, 40),
        _ => clause(rng, depth - 1),
    }
}

/// Shows whether a reference is Undefined: missing, or circular.
fn is_undefined(rng: &mut Rng) -> Expression {
    let names = [&NUMBERS[..], &STRINGS[..], &TRUTHS[..]];
    let names = *rng.pick(&names);
    let operators = [BinaryOperator::Is, BinaryOperator::Isnt];
    let operator = *rng.pick(&operators);
    let undefined = Expression::Literal(Literal::Undefined);
    binary(operator, reference(rng, names, 60), undefined)
}

// Requirements and Rank.

/// One to four clauses, mostly all to hold.
fn requirements(rng: &mut Rng) -> Expression {
    if rng.chance(25) {
        return boolean(rng.chance(95));
    }
    let mut all = clause(rng, 2);
    for _ in 0..rng.below(4).min(rng.below(4)) {
        let operator = if rng.chance(75) {
            BinaryOperator::And
        } else {
            BinaryOperator::Or
        };
        all = binary(operator, all, clause(rng, 2));
    }
    all
}

fn clause(rng: &mut Rng, depth: usize) -> Expression {
    match rng.below(10) {
        _ if depth == 0 => compare_numbers(rng),
        0..=2 => compare_numbers(rng),
        3 | 4 => compare_strings(rng),
        5 => reference(rng, &TRUTHS, 60),
        6 => is_undefined(rng),
        7 => unary(UnaryOperator::Not, clause(rng, depth - 1)),
        8 => conditional(
            truth(rng, depth - 1),
            clause(rng, depth - 1),
            clause(rng, depth - 1),
        ),
        _ => binary(
            BinaryOperator::Or,
            clause(rng, depth - 1),
            truth(rng, depth - 1),
        ),
    }
}

fn compare_numbers(rng: &mut Rng) -> Expression {
    let right = match rng.below(4) {
        0 => reference(rng, &NUMBERS, 30),
        1 => number(rng, 1),
        _ => integer(rng.below(4) as u32),
    };
    // Mostly one that small numbers on the right make true.
    let operator = if rng.chance(60) {
        BinaryOperator::GreaterOrEqual
    } else {
        *rng.pick(&ORDER)
    };
    binary(operator, reference(rng, &NUMBERS, 75), right)
}

/// Strings of both ads, or of one and a literal.
fn compare_strings(rng: &mut Rng) -> Expression {
    let operators = [
        BinaryOperator::Equal,
        BinaryOperator::Equal,
        BinaryOperator::NotEqual,
        BinaryOperator::Is,
        BinaryOperator::Isnt,
        BinaryOperator::LessOrEqual,
        BinaryOperator::Greater,
    ];
    let right = if rng.chance(50) {
        reference(rng, &STRINGS, 20)
    } else {
        string(rng.pick::<&[u8]>(&CONTENTS))
    };
    let operator = *rng.pick(&operators);
    binary(operator, reference(rng, &STRINGS, 80), right)
}

fn rank(rng: &mut Rng) -> Expression {
    match rng.below(8) {
        0 => integer(rng.below(100) as u32),
        1 => reference(rng, &NUMBERS, 70),
        2 => string_attribute(rng),
        3 => truth(rng, 1),
        4 => conditional(compare_strings(rng), integer(10), number(rng, 1)),
        _ => {
            let operator = *rng.pick(&ARITHMETIC);
            binary(operator, reference(rng, &NUMBERS, 70), number(rng, 2))
        }
    }
}
