//! Valid ads as trees: small ones, ones rich in shared names and loops, large ones.

use crate::bounds;
use crate::print::printed_text;
use crate::rng::Rng;
use crate::tree::{Ad, BinaryOperator, Definition, Expression, Literal, Scope, UnaryOperator};

/// Few names, so that references meet definitions often.
const NAMES: [&str; 12] = [
    "a",
    "b",
    "c",
    "d",
    "e",
    "w",
    "x1",
    "_y",
    "Memory",
    "KFlops",
    "Requirements",
    "Rank",
];

/// Never defined.
const MISSING: [&str; 3] = ["missing", "nowhere", "a_"];

/// What an expression should mostly give, so that not every value is Error.
#[derive(Clone, Copy)]
enum Wanted {
    Boolean,
    Number,
    String,
    Any,
}

// Builders.

pub fn integer(value: u32) -> Expression {
    Expression::Literal(Literal::Integer(value))
}

pub fn string(content: &[u8]) -> Expression {
    Expression::Literal(Literal::String(content.to_vec()))
}

pub fn boolean(value: bool) -> Expression {
    Expression::Literal(Literal::Boolean(value))
}

pub fn own(name: &str) -> Expression {
    Expression::Reference(Scope::Own, name.as_bytes().to_vec())
}

pub fn other(name: &str) -> Expression {
    Expression::Reference(Scope::Other, name.as_bytes().to_vec())
}

pub fn unary(operator: UnaryOperator, operand: Expression) -> Expression {
    Expression::Unary(operator, Box::new(operand))
}

pub fn binary(operator: BinaryOperator, left: Expression, right: Expression) -> Expression {
    Expression::Binary(operator, Box::new(left), Box::new(right))
}

pub fn conditional(condition: Expression, second: Expression, third: Expression) -> Expression {
    Expression::Conditional(Box::new(condition), Box::new(second), Box::new(third))
}

pub fn definition(name: &str, expression: Expression) -> Definition {
    let name = name.as_bytes().to_vec();
    Definition { name, expression }
}

// Letters.

/// The same name in odd letter case.
pub fn odd_case(rng: &mut Rng, name: &str) -> String {
    if rng.chance(50) {
        return name.to_string();
    }
    let turn = |letter: char| {
        if rng.chance(50) {
            letter.to_ascii_uppercase()
        } else {
            letter.to_ascii_lowercase()
        }
    };
    name.chars().map(turn).collect()
}

fn any_name(rng: &mut Rng) -> String {
    let name = *rng.pick(&NAMES);
    odd_case(rng, name)
}

/// `count` names that differ, in random order and odd case.
fn different_names(rng: &mut Rng, count: usize) -> Vec<String> {
    let mut names: Vec<&str> = NAMES.to_vec();
    let mut chosen = Vec::new();
    for _ in 0..count.min(NAMES.len()) {
        let name = names.swap_remove(rng.below(names.len()));
        chosen.push(odd_case(rng, name));
    }
    chosen
}

// Leaves.

fn any_reference(rng: &mut Rng) -> Expression {
    let name = if rng.chance(8) {
        rng.pick(&MISSING).to_string()
    } else {
        any_name(rng)
    };
    if rng.chance(40) {
        other(&name)
    } else {
        own(&name)
    }
}

fn any_integer(rng: &mut Rng) -> Expression {
    let pool = [0, 1, 2, 3, 7, 50, 60, 46_341, 65_536, 2_147_483_647];
    if rng.chance(80) {
        integer(*rng.pick(&pool))
    } else {
        integer(rng.below(1 << 31) as u32)
    }
}

fn any_real(rng: &mut Rng) -> Expression {
    let pool = [
        (0, 1),
        (5, 1),
        (30, 1),
        (1, 1),
        (3, 1),
        (10, 1),
        (1, 14),
        (999_999_999_999_999, 1),
        (999_999_999_999_999, 14),
        (21_474_836_480, 1),
    ];
    let (digits, places) = if rng.chance(70) {
        *rng.pick(&pool)
    } else {
        let size = 10_usize.pow(rng.between(1, 15) as u32);
        (rng.below(size) as u64, rng.between(1, 14) as u32)
    };
    Expression::Literal(Literal::Real { digits, places })
}

fn any_string(rng: &mut Rng) -> Expression {
    let pool: [&[u8]; 9] = [
        b"", b"x", b"One", b"one", b"ones", b"a\"b\\", b"\n\t", b"~ !", b"[a",
    ];
    if rng.chance(80) {
        return string(rng.pick::<&[u8]>(&pool));
    }
    let length = rng.below(20);
    let content: Vec<u8> = (0..length).map(|_| possible_byte(rng)).collect();
    string(&content)
}

/// A byte that a string can hold.
pub fn possible_byte(rng: &mut Rng) -> u8 {
    match rng.below(20) {
        0 => b'\n',
        1 => b'\t',
        2 => b'"',
        3 => b'\\',
        _ => rng.between(0x20, 0x7E) as u8,
    }
}

fn literal(rng: &mut Rng, wanted: Wanted) -> Expression {
    match wanted {
        Wanted::Boolean => boolean(rng.chance(50)),
        Wanted::Number if rng.chance(65) => any_integer(rng),
        Wanted::Number => any_real(rng),
        Wanted::String => any_string(rng),
        Wanted::Any => match rng.below(5) {
            0 => Expression::Literal(Literal::Undefined),
            1 => Expression::Literal(Literal::Error),
            2 => literal(rng, Wanted::Boolean),
            3 => literal(rng, Wanted::Number),
            _ => literal(rng, Wanted::String),
        },
    }
}

fn leaf(rng: &mut Rng, wanted: Wanted) -> Expression {
    if rng.chance(40) {
        any_reference(rng)
    } else if rng.chance(5) {
        literal(rng, Wanted::Any)
    } else {
        literal(rng, wanted)
    }
}

// Operators.

const ARITHMETIC: [BinaryOperator; 5] = [
    BinaryOperator::Add,
    BinaryOperator::Subtract,
    BinaryOperator::Multiply,
    BinaryOperator::Divide,
    BinaryOperator::Remainder,
];

const COMPARISON: [BinaryOperator; 6] = [
    BinaryOperator::Equal,
    BinaryOperator::NotEqual,
    BinaryOperator::Less,
    BinaryOperator::LessOrEqual,
    BinaryOperator::Greater,
    BinaryOperator::GreaterOrEqual,
];

fn expression(rng: &mut Rng, wanted: Wanted, depth: usize) -> Expression {
    if depth == 0 || rng.chance(15) {
        return leaf(rng, wanted);
    }
    let depth = depth - 1;
    if rng.chance(12) {
        return conditional(
            expression(rng, Wanted::Boolean, depth),
            expression(rng, wanted, depth),
            expression(rng, wanted, depth),
        );
    }
    match wanted {
        Wanted::Boolean => boolean_operator(rng, depth),
        Wanted::Number => number_operator(rng, depth),
        Wanted::String => leaf(rng, wanted),
        Wanted::Any => any_operator(rng, depth),
    }
}

fn boolean_operator(rng: &mut Rng, depth: usize) -> Expression {
    let (operator, operands) = match rng.below(7) {
        0 => {
            let operand = expression(rng, Wanted::Boolean, depth);
            return unary(UnaryOperator::Not, operand);
        }
        1 => (BinaryOperator::And, Wanted::Boolean),
        2 => (BinaryOperator::Or, Wanted::Boolean),
        3 => (BinaryOperator::Is, Wanted::Any),
        4 => (BinaryOperator::Isnt, Wanted::Any),
        5 => (*rng.pick(&COMPARISON), Wanted::String),
        _ => (*rng.pick(&COMPARISON), Wanted::Number),
    };
    let left = expression(rng, operands, depth);
    let right = expression(rng, operands, depth);
    binary(operator, left, right)
}

fn number_operator(rng: &mut Rng, depth: usize) -> Expression {
    if rng.chance(25) {
        let operators = [UnaryOperator::Plus, UnaryOperator::Minus];
        let operator = *rng.pick(&operators);
        return unary(operator, expression(rng, Wanted::Number, depth));
    }
    let operator = *rng.pick(&ARITHMETIC);
    let left = expression(rng, Wanted::Number, depth);
    let right = expression(rng, Wanted::Number, depth);
    binary(operator, left, right)
}

fn any_operator(rng: &mut Rng, depth: usize) -> Expression {
    if rng.chance(20) {
        let operator = *rng.pick(&UnaryOperator::ALL);
        return unary(operator, expression(rng, Wanted::Any, depth));
    }
    let operator = *rng.pick(&BinaryOperator::ALL);
    let left = expression(rng, Wanted::Any, depth);
    let right = expression(rng, Wanted::Any, depth);
    binary(operator, left, right)
}

fn wanted_for(name: &str) -> Wanted {
    match name.to_ascii_lowercase().as_str() {
        "requirements" | "b" | "c" => Wanted::Boolean,
        "rank" | "a" | "w" | "x1" | "memory" | "kflops" => Wanted::Number,
        "d" => Wanted::String,
        _ => Wanted::Any,
    }
}

// Ads.

/// 0 to 6 definitions of any expressions.
pub fn small_ad(rng: &mut Rng) -> Ad {
    let count = rng.below(7);
    let mut ad = Ad::default();
    for name in different_names(rng, count) {
        let depth = rng.below(5);
        let wanted = wanted_for(&name);
        ad.definitions
            .push(definition(&name, expression(rng, wanted, depth)));
    }
    ad
}

/// Two ads rich in shared names, self loops, loops across `other.`, loops through arms
/// not taken, references into loops from outside, and missing attributes.
pub fn rich_pair(rng: &mut Rng) -> (Ad, Ad) {
    (rich_ad(rng), rich_ad(rng))
}

fn rich_ad(rng: &mut Rng) -> Ad {
    let mut ad = Ad::default();
    let count = rng.between(2, 12);
    for name in different_names(rng, count) {
        let expression = rich_expression(rng, &name);
        ad.definitions.push(definition(&name, expression));
    }
    ad
}

fn rich_expression(rng: &mut Rng, name: &str) -> Expression {
    match rng.below(10) {
        0 | 1 => any_reference(rng),
        // A self loop, alone or below an operator.
        2 if rng.chance(30) => own(name),
        2 => binary(BinaryOperator::Add, own(name), integer(1)),
        // A loop through an arm that is not taken.
        3 if rng.chance(50) => conditional(boolean(true), integer(1), own(name)),
        3 => conditional(boolean(false), any_reference(rng), integer(2)),
        // The same name twice.
        4 => {
            let shared = any_reference(rng);
            binary(BinaryOperator::Add, shared.clone(), shared)
        }
        // A reference, perhaps into a loop, that shows whether it is Undefined.
        5 => {
            let undefined = Expression::Literal(Literal::Undefined);
            binary(BinaryOperator::Is, any_reference(rng), undefined)
        }
        _ => {
            let depth = rng.between(1, 4);
            expression(rng, wanted_for(name), depth)
        }
    }
}

/// A chain `s1 = s0 + s0; s2 = s1 + s1; ...`, here and there through the other ad. To
/// unfold the names would take two to the power of its length.
pub fn shared_pair(rng: &mut Rng) -> (Ad, Ad) {
    let length = rng.between(1, 60);
    let mut ads = [Ad::default(), Ad::default()];
    for ad in &mut ads {
        ad.definitions.push(definition("s0", any_integer(rng)));
        for number in 1..=length {
            let below = format!("s{}", number - 1);
            let reference = if rng.chance(20) {
                other(&below)
            } else {
                own(&below)
            };
            let doubled = binary(BinaryOperator::Add, reference.clone(), reference);
            ad.definitions
                .push(definition(&format!("s{number}"), doubled));
        }
        let top = own(&format!("S{length}"));
        let even = binary(BinaryOperator::Remainder, top.clone(), integer(2));
        let holds = binary(BinaryOperator::Equal, even, integer(0));
        ad.definitions.push(definition("Requirements", holds));
        ad.definitions.push(definition("Rank", top));
    }
    let [first, second] = ads;
    (first, second)
}

/// Rings of references, within one ad and across both, and references into them from
/// outside, up to the bound of definitions.
pub fn ring_pair(rng: &mut Rng) -> (Ad, Ad) {
    let length = if rng.chance(20) {
        252
    } else {
        rng.between(1, 30)
    };
    let across = rng.chance(60);
    let cut = rng.chance(30).then(|| rng.below(length));
    let mut ads = [Ad::default(), Ad::default()];
    for ad in &mut ads {
        for number in 0..length {
            let next = format!("r{}", (number + 1) % length);
            let link = if across { other(&next) } else { own(&next) };
            let expression = match cut {
                Some(place) if place == number => integer(4),
                _ if rng.chance(20) => binary(BinaryOperator::Isnt, link, integer(4)),
                _ => link,
            };
            ad.definitions
                .push(definition(&format!("r{number}"), expression));
        }
        let inside = format!("R{}", rng.below(length));
        ad.definitions.push(definition("outside", own(&inside)));
        ad.definitions.push(definition("beyond", other("outside")));
        ad.definitions
            .push(definition("REQUIREMENTS", own("beyond")));
        ad.definitions.push(definition("rank", own(&inside)));
    }
    let [first, second] = ads;
    (first, second)
}

/// Two ads near the bounds of nodes and text, with names drawn from a wide pool.
pub fn large_pair(rng: &mut Rng) -> (Ad, Ad) {
    (large_ad(rng), large_ad(rng))
}

fn large_ad(rng: &mut Rng) -> Ad {
    let names = rng.between(8, 250);
    let mut ad = Ad::default();
    ad.definitions
        .push(definition("Requirements", wide_expression(rng, names, 3)));
    ad.definitions
        .push(definition("Rank", wide_expression(rng, names, 3)));
    let mut nodes = ad.node_count();
    let mut length = printed_text(&ad).len();
    for number in 0..names {
        let next = Ad {
            definitions: vec![definition(
                &format!("n{number}"),
                wide_expression(rng, names, 3),
            )],
        };
        nodes += next.node_count();
        length += printed_text(&next).len();
        if nodes > bounds::NODES || length > bounds::TEXT_BYTES {
            break;
        }
        ad.definitions.extend(next.definitions);
    }
    ad
}

/// An expression whose references are among `n0`, `n1`, ...
fn wide_expression(rng: &mut Rng, names: usize, depth: usize) -> Expression {
    if depth == 0 || rng.chance(20) {
        let name = format!("n{}", rng.below(names));
        return match rng.below(4) {
            0 => own(&name),
            1 => other(&name),
            _ => leaf(rng, Wanted::Any),
        };
    }
    let left = wide_expression(rng, names, depth - 1);
    let right = wide_expression(rng, names, depth - 1);
    match rng.below(6) {
        0 => conditional(wide_expression(rng, names, depth - 1), left, right),
        1 => unary(*rng.pick(&UnaryOperator::ALL), left),
        _ => binary(*rng.pick(&BinaryOperator::ALL), left, right),
    }
}

/// Two ads of exactly 1,024 nodes each, all of them in the list: 512 leaves, 511 binary
/// operators and one unary one in the Requirements of either.
pub fn full_pair(rng: &mut Rng) -> (Ad, Ad) {
    (full_ad(rng), full_ad(rng))
}

/// The operators stand tightest first, so that the chain needs no parentheses.
fn full_ad(rng: &mut Rng) -> Ad {
    let operators = (1..bounds::NODES / 2).map(|_| *rng.pick(&BinaryOperator::ALL));
    let mut operators: Vec<BinaryOperator> = operators.collect();
    operators.sort_by_key(|operator| std::cmp::Reverse(operator.binding()));
    let first = *rng.pick(&UnaryOperator::ALL);
    let mut chain = unary(first, short_leaf(rng));
    for operator in operators {
        chain = binary(operator, chain, short_leaf(rng));
    }
    Ad {
        definitions: vec![definition("Requirements", chain)],
    }
}

fn short_leaf(rng: &mut Rng) -> Expression {
    match rng.below(8) {
        0 => own("requirements"),
        1 => other("requirements"),
        2 => own("gone"),
        3 => literal(rng, Wanted::Boolean),
        4 => Expression::Literal(Literal::Undefined),
        _ => any_integer(rng),
    }
}
