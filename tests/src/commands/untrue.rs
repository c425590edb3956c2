//! Pairs of which a Requirements is not true, with values of every kind.

use reference::rng::Rng;

const NAMES: [&str; 4] = [
    "Requirements",
    "requirements",
    "REQUIREMENTS",
    "reQuirements",
];

pub fn pair(rng: &mut Rng) -> Vec<Vec<u8>> {
    let fine = format!("[{} = true; s = \"\\\"\"]", rng.pick(&NAMES)).into_bytes();
    match rng.below(4) {
        0 => vec![ad(rng), fine],
        1 => vec![fine, ad(rng)],
        _ => vec![ad(rng), ad(rng)],
    }
}

/// Now and then there is no Requirements at all.
fn ad(rng: &mut Rng) -> Vec<u8> {
    let string = string(rng);
    let text = if rng.chance(5) {
        format!("[s = {string}; Rank = 3]")
    } else {
        let name = *rng.pick(&NAMES);
        format!("[s = {string};\n{name} = {}]", expression(rng))
    };
    text.into_bytes()
}

fn expression(rng: &mut Rng) -> String {
    let undefined = [
        "undefined",
        "gone",
        "other.gone",
        "requirements",
        "1 + gone",
    ];
    let errors = ["error", "1 / 0", "\"x\" || true", "1 < \"x\""];
    let large = "10000000.0 * 1000000000.0";
    let reals = ["0.0", "-0.0", "0.00001", "0.0000025", large];
    let words = ["1.0 / 0.0", "-1.0 / 0.0", "0.0 / 0.0"];
    match rng.below(12) {
        0 => rng.pick(&undefined).to_string(),
        1 => rng.pick(&errors).to_string(),
        2 => rng.pick(&["false", "!true", "1 > 2"]).to_string(),
        3 => rng.pick(&["0", "1", "2147483647"]).to_string(),
        4 | 5 => rng.pick(&["-3", "2147483647 + 1", "-7 % 3"]).to_string(),
        6 | 7 => rng.pick(&reals).to_string(),
        8 => rng.pick(&words).to_string(),
        9 => rng.pick(&["s", "other.s", "true ? s : 1"]).to_string(),
        _ => string(rng),
    }
}

/// With or without escapes, now and then of the largest length; each part is one byte.
fn string(rng: &mut Rng) -> String {
    let parts: &[&str] = if rng.chance(50) {
        &["a", "B", " ", "~", ";"]
    } else {
        &["a", "\\\"", "\\\\", "\\n", "\\t"]
    };
    let count = if rng.chance(5) { 1_024 } else { rng.below(5) };
    let content: String = (0..count).map(|_| *rng.pick(parts)).collect();
    format!("\"{content}\"")
}
