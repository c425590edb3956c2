//! The program's own tests. One binary, so that it links once.

mod big;
mod commands;
mod components;
mod examples;
mod generated;
mod graphs;
mod graphviz;
mod phrases;
mod printing;
mod reading;
mod reals;
mod refusals;
mod showing;
mod tables;
mod trees;
mod values;

use reference::evaluate::Evaluator;
use reference::graph::Pair;
use reference::read::read;
use reference::tree::Ad;

/// The ad of a text that must be accepted.
pub fn ad(text: &str) -> Ad {
    match read(text.as_bytes()) {
        Ok(ad) => ad,
        Err(refusal) => panic!("{text}: {refusal:?}"),
    }
}

/// A value in letters: Reals as their bits, Strings as their content.
pub fn shown(value: reference::value::Value) -> String {
    use reference::value::Value;
    match value {
        Value::Undefined => "undefined".to_string(),
        Value::Error => "error".to_string(),
        Value::Boolean(value) => value.to_string(),
        Value::Integer(value) => value.to_string(),
        Value::Real(value) => format!("{:#018x}", value.to_bits()),
        Value::String(value) => format!("{:?}", String::from_utf8_lossy(value.bytes)),
    }
}

/// What one expression gives, in an ad without further definitions.
pub fn given(expression: &str) -> String {
    let ad = ad(&format!("[only = {expression}]"));
    let empty = Ad::default();
    let pair = Pair::new(&ad, &empty);
    shown(Evaluator::new(&pair).definition(0, b"only").unwrap())
}

/// What a definition gives in a pair of ads.
pub fn given_in(first: &str, second: &str, side: usize, name: &str) -> String {
    let (first, second) = (ad(first), ad(second));
    let pair = Pair::new(&first, &second);
    shown(
        Evaluator::new(&pair)
            .definition(side, name.as_bytes())
            .unwrap(),
    )
}
