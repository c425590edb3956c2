//! Real arithmetic against exact rationals, bit for bit.

use crate::big::{rounded, unpacked, Natural};
use reference::rng::Rng;
use reference::tree::{BinaryOperator, UnaryOperator};
use reference::value::{binary, real_literal, unary, Value};
use std::cmp::Ordering;

const INFINITY: u64 = 0x7FF0_0000_0000_0000;
const NAN: u64 = 0x7FF8_0000_0000_0000;
const SIGN: u64 = 1 << 63;

fn is_nan(bits: u64) -> bool {
    bits & !SIGN > INFINITY
}

fn is_infinite(bits: u64) -> bool {
    bits & !SIGN == INFINITY
}

fn is_zero(bits: u64) -> bool {
    bits & !SIGN == 0
}

fn bits_of(value: Value) -> u64 {
    match value {
        Value::Real(number) => number.to_bits(),
        other => panic!("{other:?}"),
    }
}

// What each operation must give, from the bits of its operands.

fn sum(left: u64, right: u64) -> u64 {
    if is_nan(left) || is_nan(right) {
        return NAN;
    }
    match (is_infinite(left), is_infinite(right)) {
        (true, true) if left != right => return NAN,
        (true, _) => return left,
        (_, true) => return right,
        _ => {}
    }
    let (left_negative, left_whole, left_exponent) = unpacked(left);
    let (right_negative, right_whole, right_exponent) = unpacked(right);
    let exponent = left_exponent.min(right_exponent);
    let left_whole = left_whole.shifted((left_exponent - exponent) as usize);
    let right_whole = right_whole.shifted((right_exponent - exponent) as usize);
    let one = Natural::from(1);
    if left_negative == right_negative {
        return rounded(
            left_negative,
            &left_whole.plus(&right_whole),
            &one,
            exponent,
        );
    }
    match left_whole.compare(&right_whole) {
        // An exact zero from different signs is +0.
        Ordering::Equal => 0,
        Ordering::Greater => rounded(
            left_negative,
            &left_whole.minus(&right_whole),
            &one,
            exponent,
        ),
        Ordering::Less => rounded(
            right_negative,
            &right_whole.minus(&left_whole),
            &one,
            exponent,
        ),
    }
}

fn difference(left: u64, right: u64) -> u64 {
    if is_nan(right) {
        return NAN;
    }
    sum(left, right ^ SIGN)
}

fn product(left: u64, right: u64) -> u64 {
    if is_nan(left) || is_nan(right) {
        return NAN;
    }
    let sign = (left ^ right) & SIGN;
    if is_infinite(left) || is_infinite(right) {
        let undefined = is_zero(left) || is_zero(right);
        return if undefined { NAN } else { sign | INFINITY };
    }
    let (_, left_whole, left_exponent) = unpacked(left);
    let (_, right_whole, right_exponent) = unpacked(right);
    let whole = left_whole.times(&right_whole);
    rounded(
        sign != 0,
        &whole,
        &Natural::from(1),
        left_exponent + right_exponent,
    )
}

fn quotient(left: u64, right: u64) -> u64 {
    if is_nan(left) || is_nan(right) {
        return NAN;
    }
    let sign = (left ^ right) & SIGN;
    match (is_infinite(left), is_infinite(right)) {
        (true, true) => return NAN,
        (true, false) => return sign | INFINITY,
        (false, true) => return sign,
        _ => {}
    }
    match (is_zero(left), is_zero(right)) {
        (true, true) => return NAN,
        (false, true) => return sign | INFINITY,
        _ => {}
    }
    let (_, left_whole, left_exponent) = unpacked(left);
    let (_, right_whole, right_exponent) = unpacked(right);
    rounded(
        sign != 0,
        &left_whole,
        &right_whole,
        left_exponent - right_exponent,
    )
}

/// Java's: exact, with the dividend's sign.
fn remainder(left: u64, right: u64) -> u64 {
    if is_nan(left) || is_nan(right) || is_infinite(left) || is_zero(right) {
        return NAN;
    }
    if is_infinite(right) {
        return left;
    }
    let (negative, left_whole, left_exponent) = unpacked(left);
    let (_, right_whole, right_exponent) = unpacked(right);
    let exponent = left_exponent.min(right_exponent);
    let left_whole = left_whole.shifted((left_exponent - exponent) as usize);
    let right_whole = right_whole.shifted((right_exponent - exponent) as usize);
    let (_, rest) = left_whole.divided(&right_whole);
    rounded(negative, &rest, &Natural::from(1), exponent)
}

/// The exact order, none with a not-a-number.
fn order(left: u64, right: u64) -> Option<Ordering> {
    if is_nan(left) || is_nan(right) {
        return None;
    }
    // Sign and size as one signed number; both zeros are 0.
    let key = |bits: u64| {
        let size = (bits & !SIGN) as i64;
        if bits & SIGN == 0 {
            size
        } else {
            -size
        }
    };
    Some(key(left).cmp(&key(right)))
}

/// The bits of the result from the bits of both operands.
type Operation = fn(u64, u64) -> u64;

fn check_pair(left: u64, right: u64) {
    let one = Value::Real(f64::from_bits(left));
    let two = Value::Real(f64::from_bits(right));
    let operations: [(BinaryOperator, Operation); 5] = [
        (BinaryOperator::Add, sum),
        (BinaryOperator::Subtract, difference),
        (BinaryOperator::Multiply, product),
        (BinaryOperator::Divide, quotient),
        (BinaryOperator::Remainder, remainder),
    ];
    for (operator, exact) in operations {
        let result = bits_of(binary(operator, one, two));
        let expected = exact(left, right);
        assert_eq!(result, expected, "{left:#x} {operator:?} {right:#x}");
    }
    let order = order(left, right);
    let comparisons = [
        (BinaryOperator::Equal, order == Some(Ordering::Equal)),
        (BinaryOperator::NotEqual, order != Some(Ordering::Equal)),
        (BinaryOperator::Less, order.is_some_and(Ordering::is_lt)),
        (
            BinaryOperator::LessOrEqual,
            order.is_some_and(Ordering::is_le),
        ),
        (BinaryOperator::Greater, order.is_some_and(Ordering::is_gt)),
        (
            BinaryOperator::GreaterOrEqual,
            order.is_some_and(Ordering::is_ge),
        ),
        (BinaryOperator::Is, order == Some(Ordering::Equal)),
        (BinaryOperator::Isnt, order != Some(Ordering::Equal)),
    ];
    for (operator, expected) in comparisons {
        let result = binary(operator, one, two);
        assert_eq!(
            result,
            Value::Boolean(expected),
            "{left:#x} {operator:?} {right:#x}"
        );
    }
}

#[test]
fn edges_with_edges() {
    let sizes = [
        0,
        1,
        2,
        0x000F_FFFF_FFFF_FFFF,
        0x0010_0000_0000_0000,
        0x0010_0000_0000_0001,
        0x3CA0_0000_0000_0000,
        0x3FE0_0000_0000_0000,
        0x3FEF_FFFF_FFFF_FFFF,
        0x3FF0_0000_0000_0000,
        0x3FF0_0000_0000_0001,
        0x4000_0000_0000_0000,
        0x4008_0000_0000_0000,
        0x41DF_FFFF_FFC0_0000,
        0x4340_0000_0000_0000,
        0x7FE0_0000_0000_0000,
        0x7FEF_FFFF_FFFF_FFFF,
        INFINITY,
        NAN,
    ];
    for left in sizes {
        for right in sizes {
            for signs in 0..4_u64 {
                // There is one not-a-number only, and it has no sign.
                let left = if left == NAN {
                    left
                } else {
                    left | signs << 63
                };
                let right = if right == NAN {
                    right
                } else {
                    right | (signs >> 1) << 63
                };
                check_pair(left, right);
            }
        }
    }
}

#[test]
fn random_bits() {
    let mut rng = Rng::new(64);
    for _ in 0..2_000 {
        check_pair(any_bits(&mut rng), any_bits(&mut rng));
    }
}

/// Near exponents, where sums cancel and quotients round in every way.
#[test]
fn random_bits_of_near_size() {
    let mut rng = Rng::new(65);
    for _ in 0..10_000 {
        let base = rng.between(1, 0x7F0) as u64;
        let near = |rng: &mut Rng| {
            let exponent = base + rng.below(8) as u64;
            let fraction = any_fraction(rng);
            (rng.bits() & SIGN) | exponent << 52 | fraction
        };
        check_pair(near(&mut rng), near(&mut rng));
    }
}

/// Factors whose product or quotient falls below the normal range.
#[test]
fn random_bits_of_small_results() {
    let mut rng = Rng::new(66);
    for _ in 0..5_000 {
        let exponent = rng.between(450, 560) as u64;
        let left = (rng.bits() & SIGN) | exponent << 52 | any_fraction(&mut rng);
        let other = rng.between(450, 560) as u64;
        let right = (rng.bits() & SIGN) | other << 52 | any_fraction(&mut rng);
        check_pair(left, right);
        let small = any_fraction(&mut rng) >> rng.below(52);
        let divisor = (rng.between(1_000, 1_060) as u64) << 52 | any_fraction(&mut rng);
        check_pair(small, divisor);
    }
}

/// A fraction of 52 bits, often with few of them set.
fn any_fraction(rng: &mut Rng) -> u64 {
    let all = rng.bits() >> 12;
    match rng.below(4) {
        0 => 0,
        1 => (1 << 52) - 1,
        2 => all & !((1 << rng.below(52)) - 1),
        _ => all,
    }
}

fn any_bits(rng: &mut Rng) -> u64 {
    let bits = match rng.below(8) {
        0 => rng.bits() & !INFINITY,
        1 => (rng.bits() & SIGN) | INFINITY,
        2 => rng.bits() & SIGN,
        _ => rng.bits(),
    };
    if is_nan(bits) {
        NAN
    } else {
        bits
    }
}

#[test]
fn unary_minus_and_plus() {
    let mut rng = Rng::new(67);
    for _ in 0..2_000 {
        let bits = any_bits(&mut rng);
        let value = Value::Real(f64::from_bits(bits));
        let turned = if is_nan(bits) { NAN } else { bits ^ SIGN };
        assert_eq!(bits_of(unary(UnaryOperator::Minus, value)), turned);
        assert_eq!(bits_of(unary(UnaryOperator::Plus, value)), bits);
    }
}

#[test]
fn literals_are_rounded_once() {
    let check = |digits: u64, places: u32| {
        let exact = rounded(
            false,
            &Natural::from(digits),
            &Natural::power_of_ten(places),
            0,
        );
        assert_eq!(
            bits_of(real_literal(digits, places)),
            exact,
            "{digits} / 10^{places}"
        );
    };
    for places in 1..=14 {
        for digits in [0, 1, 5, 10, 999_999_999_999_999, 450_359_962_737_049] {
            check(digits, places);
        }
    }
    let mut rng = Rng::new(68);
    for _ in 0..20_000 {
        let size = 10_u64.pow(rng.between(1, 15) as u32);
        check(rng.bits() % size, rng.between(1, 14) as u32);
    }
}

/// The same through a text, so that the digits and places are those written.
#[test]
fn literals_from_texts() {
    let mut rng = Rng::new(69);
    for _ in 0..500 {
        let size = 10_usize.pow(rng.between(1, 7) as u32);
        let before = rng.below(size);
        let places = rng.between(1, 8);
        let after = rng.below(10_usize.pow(places as u32));
        let digits = before as u64 * 10_u64.pow(places as u32) + after as u64;
        let power = Natural::power_of_ten(places as u32);
        let exact = rounded(false, &Natural::from(digits), &power, 0);
        let text = format!("{before}.{after:0places$}");
        assert_eq!(crate::given(&text), format!("{exact:#018x}"), "{text}");
    }
}

/// "Mixed: the Integer becomes Real first", and every Integer does so exactly.
#[test]
fn mixed_operands() {
    let mut rng = Rng::new(70);
    for _ in 0..2_000 {
        let whole = (rng.bits() as i32) >> rng.below(32);
        let size = Natural::from(u64::from(whole.unsigned_abs()));
        let bits = rounded(whole < 0, &size, &Natural::from(1), 0);
        let (integer, real) = (Value::Integer(whole), Value::Real(f64::from_bits(bits)));
        let other = Value::Real(f64::from_bits(any_bits(&mut rng)));
        for operator in BinaryOperator::ALL {
            if matches!(operator, BinaryOperator::Is | BinaryOperator::Isnt) {
                continue;
            }
            let mixed = binary(operator, integer, other);
            assert_eq!(
                mixed,
                binary(operator, real, other),
                "{whole} {operator:?} {other:?}"
            );
            let mixed = binary(operator, other, integer);
            assert_eq!(
                mixed,
                binary(operator, other, real),
                "{other:?} {operator:?} {whole}"
            );
        }
    }
}

/// The tests' own rounding, on numbers that can be worked out by hand.
#[test]
fn the_oracle_itself() {
    let one = Natural::from(1);
    let three = Natural::from(3);
    assert_eq!(rounded(false, &one, &one, 0), 0x3FF0_0000_0000_0000);
    assert_eq!(
        rounded(true, &three, &Natural::from(2), 0),
        0xBFF8_0000_0000_0000
    );
    assert_eq!(rounded(false, &one, &three, 0), 0x3FD5_5555_5555_5555);
    assert_eq!(
        rounded(false, &one, &Natural::from(10), 0),
        0x3FB9_9999_9999_999A
    );
    assert_eq!(rounded(false, &one, &one, -1074), 1);
    // Half of the smallest goes to even, which is 0; three halves go to 2.
    assert_eq!(rounded(false, &one, &one, -1075), 0);
    assert_eq!(rounded(false, &three, &one, -1075), 2);
    assert_eq!(rounded(false, &three, &one, -1076), 1);
    // 2^53 + 1 goes down to even, 2^53 + 3 up.
    assert_eq!(
        rounded(false, &Natural::from((1 << 53) + 1), &one, 0),
        0x4340_0000_0000_0000
    );
    assert_eq!(
        rounded(false, &Natural::from((1 << 53) + 3), &one, 0),
        0x4340_0000_0000_0002
    );
    // The largest float, and half a place more, which is infinite.
    assert_eq!(
        rounded(false, &Natural::from((1 << 53) - 1), &one, 971),
        INFINITY - 1
    );
    assert_eq!(
        rounded(false, &Natural::from((1 << 54) - 1), &one, 970),
        INFINITY
    );
    assert_eq!(rounded(false, &one, &one, 1024), INFINITY);
}
