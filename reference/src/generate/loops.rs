//! Pairs with loops that lead into further loops, within an ad and across both, and that
//! are entered at any of their places.

use super::ads::{binary, conditional, definition, integer, odd_case, other, own};
use crate::rng::Rng;
use crate::tree::{Ad, BinaryOperator, Expression};
use std::ops::Range;

/// A definition to come: its name, the ad that will hold it, and the places of its loop.
struct Place {
    side: usize,
    name: String,
    turn: Range<usize>,
}

pub fn loop_pair(rng: &mut Rng) -> (Ad, Ad) {
    let places = places(rng);
    let mut ads = [Ad::default(), Ad::default()];
    let mut left: Vec<usize> = (0..places.len()).collect();
    // In any order, so that a search may start anywhere.
    while !left.is_empty() {
        let number = left.swap_remove(rng.below(left.len()));
        let Place { side, name, .. } = &places[number];
        let expression = expression(rng, &places, number);
        ads[*side].definitions.push(definition(name, expression));
    }
    let [first, second] = ads;
    (first, second)
}

/// One to eight loops of one to six places, at times many; each in one ad or in both.
fn places(rng: &mut Rng) -> Vec<Place> {
    let loops = if rng.chance(5) { 40 } else { rng.between(1, 8) };
    let mut places: Vec<Place> = Vec::new();
    for _ in 0..loops {
        let start = places.len();
        let turn = start..start + rng.between(1, 6);
        let (across, one) = (rng.chance(50), rng.below(2));
        for number in turn.clone() {
            places.push(Place {
                side: if across { rng.below(2) } else { one },
                name: format!("p{number}"),
                turn: turn.clone(),
            });
        }
    }
    for side in [0, 1] {
        name_root(rng, &mut places, side, "Requirements");
        name_root(rng, &mut places, side, "Rank");
    }
    places
}

/// Gives a place of the side this name, if one is left.
fn name_root(rng: &mut Rng, places: &mut [Place], side: usize, name: &str) {
    let is_free = |place: &&mut Place| place.side == side && place.name.starts_with('p');
    let mut free: Vec<&mut Place> = places.iter_mut().filter(is_free).collect();
    if !free.is_empty() {
        let chosen = rng.below(free.len());
        free[chosen].name = name.to_string();
    }
}

/// A link to the loop's next place, from the last one back to any; and beside it up to two
/// links to any of its places, into a later loop, or to nothing.
fn expression(rng: &mut Rng, places: &[Place], number: usize) -> Expression {
    let Range { start, end } = places[number].turn;
    let any = rng.between(start, end - 1);
    let onward = if number + 1 < end { number + 1 } else { any };
    let mut operands = vec![reference(rng, places, number, onward)];
    for _ in 0..rng.below(3) {
        let more = match rng.below(5) {
            0 => own("absent"),
            1 => reference(rng, places, number, any),
            2..=3 if end < places.len() => {
                let later = rng.between(end, places.len() - 1);
                reference(rng, places, number, later)
            }
            _ => integer(1),
        };
        operands.insert(rng.below(operands.len() + 1), more);
    }
    joined(rng, operands)
}

fn reference(rng: &mut Rng, places: &[Place], from: usize, to: usize) -> Expression {
    let name = odd_case(rng, &places[to].name);
    if places[from].side == places[to].side {
        own(&name)
    } else {
        other(&name)
    }
}

/// Three operands as a conditional, two with any operator, one as it is.
fn joined(rng: &mut Rng, operands: Vec<Expression>) -> Expression {
    match <[Expression; 3]>::try_from(operands) {
        Ok([condition, second, third]) => conditional(condition, second, third),
        Err(fewer) => {
            let operator = *rng.pick(&BinaryOperator::ALL);
            let all = fewer.into_iter();
            let whole = all.reduce(|left, right| binary(operator, left, right));
            whole.expect("an operand")
        }
    }
}
