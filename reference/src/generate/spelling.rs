//! A tree written in one of its many spellings: blanks, letter case of keywords,
//! needless parentheses, idle zeros, `=?=` for `is`.

use super::ads::odd_case;
use crate::bounds;
use crate::bytes;
use crate::print::{operand_bindings, wants_parentheses};
use crate::rng::Rng;
use crate::tree::{Ad, BinaryOperator, Expression, Literal, Scope};

/// A text that reads as this ad.
pub fn spelled(rng: &mut Rng, ad: &Ad) -> Vec<u8> {
    let tokens = spelled_tokens(rng, ad);
    joined(rng, &tokens)
}

/// The tokens of such a text.
pub fn spelled_tokens(rng: &mut Rng, ad: &Ad) -> Vec<Vec<u8>> {
    let mut speller = Speller {
        rng,
        tokens: Vec::new(),
    };
    speller.ad(ad);
    speller.tokens
}

/// Tokens with blanks between them, where two would otherwise read as one at least one
/// blank.
pub fn joined(rng: &mut Rng, tokens: &[Vec<u8>]) -> Vec<u8> {
    let wide = rng.chance(50);
    let mut text = Vec::new();
    let mut previous: &[u8] = b"";
    for token in tokens {
        let least = usize::from(would_merge(previous, token));
        let most = if wide { 4 } else { least };
        let count = rng.between(least, most);
        put_blanks(rng, count, &mut text);
        text.extend(token);
        previous = token;
    }
    let count = if wide { rng.below(3) } else { 0 };
    put_blanks(rng, count, &mut text);
    text
}

pub fn put_blanks(rng: &mut Rng, count: usize, text: &mut Vec<u8>) {
    for _ in 0..count {
        text.push(*rng.pick(b" \t\r\n"));
    }
}

/// A word and what could continue it. A number and a word behind it stay two tokens.
fn would_merge(previous: &[u8], token: &[u8]) -> bool {
    let (Some(&start), Some(&end), Some(&next)) =
        (previous.first(), previous.last(), token.first())
    else {
        return false;
    };
    let number_and_word = start.is_ascii_digit() && bytes::starts_name(next);
    bytes::continues_name(end) && bytes::continues_name(next) && !number_and_word
}

struct Speller<'r> {
    rng: &'r mut Rng,
    tokens: Vec<Vec<u8>>,
}

impl Speller<'_> {
    fn put(&mut self, token: &[u8]) {
        self.tokens.push(token.to_vec());
    }

    fn put_word(&mut self, word: &str) {
        let word = odd_case(self.rng, word);
        self.put(word.as_bytes());
    }

    fn ad(&mut self, ad: &Ad) {
        self.put(b"[");
        for (index, definition) in ad.definitions.iter().enumerate() {
            if index > 0 {
                self.put(b";");
            }
            self.put(&definition.name);
            self.put(b"=");
            self.operand(&definition.expression, 0, 0);
        }
        if !ad.definitions.is_empty() && self.rng.chance(30) {
            self.put(b";");
        }
        self.put(b"]");
    }

    /// An operand in a place that takes `needed` without parentheses, at a level. Now
    /// and then in parentheses all the same, but only far from the bound of levels.
    fn operand(&mut self, operand: &Expression, needed: u8, level: usize) {
        if wants_parentheses(operand, needed) || (level < bounds::LEVEL / 4 && self.rng.chance(8)) {
            self.put(b"(");
            self.operand(operand, 0, level + 1);
            self.put(b")");
        } else {
            self.expression(operand, level);
        }
    }

    fn expression(&mut self, expression: &Expression, level: usize) {
        let needed = operand_bindings(expression);
        match expression {
            Expression::Literal(literal) => self.literal(literal),
            Expression::Reference(scope, name) => {
                if *scope == Scope::Other {
                    self.put_word("other");
                    self.put(b".");
                }
                self.put(name);
            }
            Expression::Unary(operator, operand) => {
                self.put(operator.spelling().as_bytes());
                self.operand(operand, needed[0], level + 1);
            }
            Expression::Binary(operator, left, right) => {
                self.operand(left, needed[0], level);
                self.binary_operator(*operator);
                self.operand(right, needed[1], level);
            }
            Expression::Conditional(condition, second, third) => {
                self.operand(condition, needed[0], level);
                self.put(b"?");
                self.operand(second, needed[1], level + 1);
                self.put(b":");
                self.operand(third, needed[2], level + 1);
            }
        }
    }

    fn binary_operator(&mut self, operator: BinaryOperator) {
        match operator {
            BinaryOperator::Is if self.rng.chance(50) => self.put(b"=?="),
            BinaryOperator::Isnt if self.rng.chance(50) => self.put(b"=!="),
            _ => self.put_word(operator.spelling()),
        }
    }

    fn literal(&mut self, literal: &Literal) {
        match literal {
            Literal::Undefined => self.put_word("undefined"),
            Literal::Error => self.put_word("error"),
            Literal::Boolean(true) => self.put_word("true"),
            Literal::Boolean(false) => self.put_word("false"),
            Literal::Integer(value) => {
                let zeros = if self.rng.chance(10) {
                    self.rng.below(30)
                } else {
                    0
                };
                self.put(format!("{}{value}", "0".repeat(zeros)).as_bytes());
            }
            Literal::Real { digits, places } => self.real(*digits, *places as usize),
            Literal::String(content) => self.string(content),
        }
    }

    /// Idle zeros as far as 15 digits allow.
    fn real(&mut self, digits: u64, places: usize) {
        let least = format!("{digits:0width$}", width = places + 1);
        let spare = bounds::REAL_DIGITS.saturating_sub(least.len());
        let zeros = if self.rng.chance(20) {
            self.rng.below(spare + 1)
        } else {
            0
        };
        let all = "0".repeat(zeros) + &least;
        let (before, after) = all.split_at(all.len() - places);
        self.put(format!("{before}.{after}").as_bytes());
    }

    fn string(&mut self, content: &[u8]) {
        let mut token = vec![b'"'];
        for &byte in content {
            if let Some(letter) = bytes::escape_letter(byte) {
                token.extend([b'\\', letter]);
            } else {
                token.push(byte);
            }
        }
        token.push(b'"');
        self.put(&token);
    }
}
