//! Whole numbers of any size, and exact rounding of a quotient of two of them to the
//! nearest 64-bit float, ties to even. Nothing here uses float arithmetic.

use std::cmp::Ordering;

/// Digits in base 2^32, least first, no zero at the end.
#[derive(Clone, Debug, PartialEq, Eq)]
pub struct Natural {
    digits: Vec<u32>,
}

impl Natural {
    pub fn from(value: u64) -> Natural {
        Natural::trimmed(vec![value as u32, (value >> 32) as u32])
    }

    pub fn power_of_ten(exponent: u32) -> Natural {
        let mut power = Natural::from(1);
        for _ in 0..exponent {
            power = power.times(&Natural::from(10));
        }
        power
    }

    fn trimmed(mut digits: Vec<u32>) -> Natural {
        while digits.last() == Some(&0) {
            digits.pop();
        }
        Natural { digits }
    }

    pub fn is_zero(&self) -> bool {
        self.digits.is_empty()
    }

    pub fn bit_length(&self) -> usize {
        match self.digits.last() {
            None => 0,
            Some(top) => self.digits.len() * 32 - top.leading_zeros() as usize,
        }
    }

    fn bit(&self, place: usize) -> bool {
        self.digits
            .get(place / 32)
            .is_some_and(|digit| digit >> (place % 32) & 1 == 1)
    }

    /// The value, which must fit.
    pub fn small(&self) -> u64 {
        assert!(self.digits.len() <= 2);
        let digit = |place| u64::from(self.digits.get(place).copied().unwrap_or(0));
        digit(1) << 32 | digit(0)
    }

    pub fn shifted(&self, bits: usize) -> Natural {
        let mut digits = vec![0; bits / 32];
        let mut carry = 0_u64;
        for &digit in &self.digits {
            let wide = u64::from(digit) << (bits % 32) | carry;
            digits.push(wide as u32);
            carry = wide >> 32;
        }
        digits.push(carry as u32);
        Natural::trimmed(digits)
    }

    /// Twice the value, and one more if the bit is set.
    fn append(&mut self, bit: bool) {
        let mut carry = u32::from(bit);
        for digit in &mut self.digits {
            let high = *digit >> 31;
            *digit = *digit << 1 | carry;
            carry = high;
        }
        if carry > 0 {
            self.digits.push(carry);
        }
    }

    pub fn plus(&self, other: &Natural) -> Natural {
        let mut digits = Vec::new();
        let mut carry = 0_u64;
        for place in 0..self.digits.len().max(other.digits.len()) {
            let digit =
                |number: &Natural| u64::from(number.digits.get(place).copied().unwrap_or(0));
            let sum = digit(self) + digit(other) + carry;
            digits.push(sum as u32);
            carry = sum >> 32;
        }
        digits.push(carry as u32);
        Natural::trimmed(digits)
    }

    /// The difference; `other` must not be larger.
    pub fn minus(&self, other: &Natural) -> Natural {
        let mut digits = Vec::new();
        let mut borrow = 0_i64;
        for (place, &digit) in self.digits.iter().enumerate() {
            let taken = i64::from(other.digits.get(place).copied().unwrap_or(0));
            let rest = i64::from(digit) - taken - borrow;
            borrow = i64::from(rest < 0);
            digits.push((rest + (borrow << 32)) as u32);
        }
        assert_eq!(borrow, 0);
        Natural::trimmed(digits)
    }

    pub fn times(&self, other: &Natural) -> Natural {
        let mut digits = vec![0_u32; self.digits.len() + other.digits.len()];
        for (place, &one) in self.digits.iter().enumerate() {
            let mut carry = 0_u64;
            for (offset, &two) in other.digits.iter().enumerate() {
                let known = u64::from(digits[place + offset]);
                let wide = u64::from(one) * u64::from(two) + known + carry;
                digits[place + offset] = wide as u32;
                carry = wide >> 32;
            }
            digits[place + other.digits.len()] = carry as u32;
        }
        Natural::trimmed(digits)
    }

    /// Quotient and rest, bit by bit.
    pub fn divided(&self, divisor: &Natural) -> (Natural, Natural) {
        assert!(!divisor.is_zero());
        let mut quotient = vec![0_u32; self.digits.len()];
        let mut rest = Natural::from(0);
        for place in (0..self.bit_length()).rev() {
            rest.append(self.bit(place));
            if rest.compare(divisor) != Ordering::Less {
                rest = rest.minus(divisor);
                quotient[place / 32] |= 1 << (place % 32);
            }
        }
        (Natural::trimmed(quotient), rest)
    }

    pub fn compare(&self, other: &Natural) -> Ordering {
        let lengths = self.digits.len().cmp(&other.digits.len());
        lengths.then_with(|| self.digits.iter().rev().cmp(other.digits.iter().rev()))
    }
}

/// The bits of the float nearest to numerator / denominator * 2^exponent, ties to even.
pub fn rounded(negative: bool, numerator: &Natural, denominator: &Natural, exponent: i64) -> u64 {
    let sign = u64::from(negative) << 63;
    if numerator.is_zero() {
        return sign;
    }
    // The last place: 53 bits of quotient, or fewer below the normal range.
    let size = numerator.bit_length() as i64 - denominator.bit_length() as i64 + exponent;
    let mut last = (size - 53).max(-1074);
    let (mut whole, mut rest, mut scaled) = quotient(numerator, denominator, exponent - last);
    if whole.bit_length() > 53 {
        last += 1;
        (whole, rest, scaled) = quotient(numerator, denominator, exponent - last);
    }
    // Half of the last place against the rest.
    let up = match rest.shifted(1).compare(&scaled) {
        Ordering::Greater => true,
        Ordering::Equal => whole.small() & 1 == 1,
        Ordering::Less => false,
    };
    let mut whole = whole.small() + u64::from(up);
    if whole == 1 << 53 {
        whole = 1 << 52;
        last += 1;
    }
    sign | packed(whole, last)
}

/// Whole part and rest of numerator / denominator * 2^shift, and what the rest is a
/// part of.
fn quotient(numerator: &Natural, denominator: &Natural, shift: i64) -> (Natural, Natural, Natural) {
    let numerator = numerator.shifted(shift.max(0) as usize);
    let denominator = denominator.shifted((-shift).max(0) as usize);
    let (whole, rest) = numerator.divided(&denominator);
    (whole, rest, denominator)
}

/// The bits of whole * 2^last, where whole is below 2^53 and last at least -1074.
fn packed(whole: u64, last: i64) -> u64 {
    if whole < 1 << 52 {
        assert_eq!(last, -1074);
        return whole;
    }
    if last > 971 {
        return 0x7FF0_0000_0000_0000;
    }
    let biased = (last + 1075) as u64;
    biased << 52 | (whole - (1 << 52))
}

/// A finite float as sign, whole number and power of two.
pub fn unpacked(bits: u64) -> (bool, Natural, i64) {
    let biased = (bits >> 52 & 0x7FF) as i64;
    let fraction = bits & ((1 << 52) - 1);
    assert!(biased != 0x7FF);
    let negative = bits >> 63 == 1;
    if biased == 0 {
        (negative, Natural::from(fraction), -1074)
    } else {
        (negative, Natural::from(fraction | 1 << 52), biased - 1075)
    }
}
