//! Pairs of few names in any case, each defined in one ad, in both or in none: references of
//! every kind for a graph.

use reference::generate::ads::odd_case;
use reference::rng::Rng;

const NAMES: [&str; 8] = [
    "a",
    "b",
    "cd",
    "_x1",
    "w9",
    "absent",
    "Requirements",
    "Rank",
];

pub fn pair(rng: &mut Rng) -> Vec<Vec<u8>> {
    vec![ad(rng), ad(rng)]
}

fn ad(rng: &mut Rng) -> Vec<u8> {
    let mut left = NAMES.to_vec();
    let mut definitions = Vec::new();
    for _ in 0..rng.below(6) {
        let name = left.swap_remove(rng.below(left.len()));
        let name = odd_case(rng, name);
        definitions.push(format!("{name} = {}", expression(rng)));
    }
    format!("[{}]", definitions.join("; ")).into_bytes()
}

/// One to five operands, most of them references.
fn expression(rng: &mut Rng) -> String {
    let mut text = operand(rng);
    for _ in 0..rng.below(5) {
        let next = operand(rng);
        text = match rng.below(4) {
            0 => format!("({text}) + {next}"),
            1 => format!("{next} - ({text})"),
            2 => format!("{text} ? {next} : {}", operand(rng)),
            _ => format!("{next} is {text}"),
        };
    }
    text
}

fn operand(rng: &mut Rng) -> String {
    let name = *rng.pick(&NAMES);
    let name = odd_case(rng, name);
    match rng.below(8) {
        0 => "1".to_string(),
        1..=4 => name,
        _ => format!("other.{name}"),
    }
}
