//! Smaller inputs that still show a difference.

use crate::sample::Sample;
use reference::tree::Expression;

/// How many smaller inputs are tried.
const TRIES: usize = 2_000;

/// Leaves out parts, larger ones first, as long as `differs` holds of the rest, and again
/// until no part is left to leave out.
pub fn shrunk<T: Clone>(items: &[T], differs: impl Fn(&[T]) -> bool) -> Vec<T> {
    shrunk_within(items, TRIES, differs)
}

pub fn shrunk_within<T: Clone>(
    items: &[T],
    mut tries: usize,
    differs: impl Fn(&[T]) -> bool,
) -> Vec<T> {
    let mut small = items.to_vec();
    loop {
        let before = small.len();
        halves(before).for_each(|size| without_parts(&mut small, size, &mut tries, &differs));
        if small.len() == before || tries == 0 {
            return small;
        }
    }
}

/// A size, its half, and so on down to 1.
fn halves(size: usize) -> impl Iterator<Item = usize> {
    std::iter::successors(Some(size), |size| Some(size / 2)).take_while(|&size| size > 0)
}

/// Leaves out parts of this size.
fn without_parts<T: Clone>(
    items: &mut Vec<T>,
    size: usize,
    tries: &mut usize,
    differs: impl Fn(&[T]) -> bool,
) {
    let mut at = 0;
    while at < items.len() && *tries > 0 {
        *tries -= 1;
        let end = (at + size).min(items.len());
        let shorter = [&items[..at], &items[end..]].concat();
        if differs(&shorter) {
            *items = shorter;
        } else {
            at += size;
        }
    }
}

/// The same of stored ads: without changes, without definitions, with smaller expressions.
pub fn shrunk_samples<const N: usize>(
    samples: &[Sample; N],
    differs: impl Fn(&[Sample; N]) -> bool,
) -> [Sample; N] {
    let mut small = samples.clone();
    for number in 0..N {
        let with = |change: &dyn Fn(&mut Sample)| {
            let mut changed = small.clone();
            change(&mut changed[number]);
            changed
        };
        let changes = shrunk(&small[number].changes, |changes| {
            differs(&with(&|sample| sample.changes = changes.to_vec()))
        });
        let definitions = shrunk(&small[number].ad.definitions, |definitions| {
            differs(&with(&|sample| {
                sample.changes = changes.clone();
                sample.ad.definitions = definitions.to_vec();
            }))
        });
        small[number].changes = changes;
        small[number].ad.definitions = definitions;
    }
    with_small_expressions(&mut small, differs);
    small
}

fn with_small_expressions<const N: usize>(
    samples: &mut [Sample; N],
    differs: impl Fn(&[Sample; N]) -> bool,
) {
    let mut tries = TRIES;
    let places = |number: usize| samples[number].ad.definitions.len();
    let all: Vec<(usize, usize)> = (0..N)
        .flat_map(|number| (0..places(number)).map(move |place| (number, place)))
        .collect();
    for (number, place) in all {
        with_small_expression(samples, number, place, &mut tries, &differs);
    }
}

/// Puts operands in place of the operators of one definition.
fn with_small_expression<const N: usize>(
    samples: &mut [Sample; N],
    number: usize,
    place: usize,
    tries: &mut usize,
    differs: impl Fn(&[Sample; N]) -> bool,
) {
    let mut node = 0;
    while node < samples[number].ad.node_count() && *tries > 0 {
        *tries -= 1;
        let small = (0..3)
            .filter_map(|operand| with_operand(samples, number, place, node, operand))
            .find(&differs);
        match small {
            Some(small) => *samples = small,
            None => node += 1,
        }
    }
}

/// One of its operands in place of an operator.
fn with_operand<const N: usize>(
    samples: &[Sample; N],
    number: usize,
    place: usize,
    node: usize,
    operand: usize,
) -> Option<[Sample; N]> {
    let mut changed = samples.clone();
    let expression = &mut changed[number].ad.definitions[place].expression;
    let found = nth(expression, &mut { node })?;
    *found = (*found.operands().get(operand)?).clone();
    Some(changed)
}

/// The node that stands behind so many others, an operator before its operands.
fn nth<'a>(expression: &'a mut Expression, left: &mut usize) -> Option<&'a mut Expression> {
    if *left == 0 {
        return Some(expression);
    }
    *left -= 1;
    match expression {
        Expression::Literal(_) | Expression::Reference(..) => None,
        Expression::Unary(_, operand) => nth(operand, left),
        Expression::Binary(_, one, two) => nth(one, left).or_else(|| nth(two, left)),
        Expression::Conditional(one, two, three) => nth(one, left)
            .or_else(|| nth(two, left))
            .or_else(|| nth(three, left)),
    }
}
