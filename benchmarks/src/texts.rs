//! Texts that are hard in different ways, by size.

use reference::bounds;
use reference::generate::ads::{binary, definition, own};
use reference::print::printed_text;
use reference::read::read;
use reference::tree::{Ad, BinaryOperator, Definition, Expression};

/// A job and a bench as a clinic would write them, 40 definitions each.
pub const JOB: &[u8] = include_bytes!("../ads/job.ad");
pub const BENCH: &[u8] = include_bytes!("../ads/bench.ad");

pub fn tree(text: &[u8]) -> Ad {
    read(text).expect("an ad")
}

pub fn small() -> Vec<u8> {
    let text = r#"[ Type = "Machine"; Memory = 16384; Cpus = 8; LoadAvg = 0.25; Arch = "X86_64"; OpSys = "LINUX";
Rank = other.Department == "Physics" ? 10 : other.JobPrio / 2;
Requirements = LoadAvg < 0.3 && other.RequestMemory <= Memory && other.RequestCpus <= Cpus ]"#;
    text.as_bytes().to_vec()
}

/// Definitions with names of 60 bytes: three digits behind or before the same bytes, so that
/// two names differ late or early. Each takes 64 bytes of the text.
pub fn late_names(count: usize) -> Vec<u8> {
    let same = "n".repeat(57);
    named(count, |number| format!("{same}{number:03}"))
}

pub fn early_names(count: usize) -> Vec<u8> {
    let same = "n".repeat(56);
    named(count, |number| format!("n{number:03}{same}"))
}

fn named(count: usize, name: impl Fn(usize) -> String) -> Vec<u8> {
    let definitions = (0..count).map(|number| name(number) + "=1;\n");
    let mut text = format!("[{}", definitions.collect::<String>()).into_bytes();
    // The last line's end gives way to the bracket.
    text.pop();
    text.pop();
    text.push(b']');
    text
}

/// Operands in so many parentheses each, with `+` between them.
pub fn sum(count: usize, parentheses: usize) -> Vec<u8> {
    let operand = ["(".repeat(parentheses), ")".repeat(parentheses)].join("1");
    format!("[a={}]", vec![operand; count].join("+")).into_bytes()
}

/// A sum of names of 29 bytes, 32 bytes of the text each.
pub fn wide_sum(count: usize) -> Vec<u8> {
    let operands = (0..count).map(|number| format!("{}{number:03}", "n".repeat(26)));
    format!("[a={}]", operands.collect::<Vec<String>>().join(" + ")).into_bytes()
}

/// Operators of rising and falling levels in turn.
pub fn levels(count: usize) -> Vec<u8> {
    let operators = ["||", "*", "&&", "+", "==", "<"];
    let more = (1..count).map(|number| operators[number % operators.len()].to_string() + "1");
    format!("[a=1{}]", more.collect::<String>()).into_bytes()
}

pub fn strings() -> Vec<u8> {
    let string = "x".repeat(bounds::STRING_BYTES);
    let definitions = (0..15).map(|number| format!("n{number}=\"{string}\";"));
    padded(format!("[{}", definitions.collect::<String>()).into_bytes())
}

/// Blanks and the closing bracket, up to the text's bound.
pub fn padded(mut text: Vec<u8>) -> Vec<u8> {
    text.resize(bounds::TEXT_BYTES - 1, b' ');
    text.push(b']');
    text
}

// Realistic ads of any size.

/// The definitions with a number behind every name, so that copies can stand in one ad.
fn copy(ad: &Ad, number: usize) -> Vec<Definition> {
    let end = format!("_{number}").into_bytes();
    let mut definitions = ad.definitions.clone();
    for definition in &mut definitions {
        definition.name.extend(&end);
        rename(&mut definition.expression, &end);
    }
    definitions
}

fn rename(expression: &mut Expression, end: &[u8]) {
    match expression {
        Expression::Literal(_) => {}
        Expression::Reference(_, name) => name.extend(end),
        Expression::Unary(_, operand) => rename(operand, end),
        Expression::Binary(_, left, right) => {
            rename(left, end);
            rename(right, end);
        }
        Expression::Conditional(condition, second, third) => {
            rename(condition, end);
            rename(second, end);
            rename(third, end);
        }
    }
}

/// The job's definitions again and again, as many as a text of this length holds.
pub fn repeated(length: usize) -> Vec<u8> {
    let job = tree(JOB);
    let copies = (0..).flat_map(|number| copy(&job, number));
    let mut text = b"[".to_vec();
    for definition in copies.take(bounds::DEFINITIONS) {
        let more = printed_text(&Ad {
            definitions: vec![definition],
        });
        if text.len() + more.len() > length {
            break;
        }
        text.extend(&more[1..more.len() - 1]);
        text.push(b';');
    }
    text.push(b']');
    text
}

/// So many copies of an ad in one, which wants what all of them want.
pub fn copies(text: &[u8], count: usize) -> Vec<u8> {
    let ad = tree(text);
    let mut definitions: Vec<Definition> =
        (0..count).flat_map(|number| copy(&ad, number)).collect();
    for (name, operator) in [
        ("Requirements", BinaryOperator::And),
        ("Rank", BinaryOperator::Add),
    ] {
        let parts = (0..count).map(|number| own(&format!("{name}_{number}")));
        let all = parts.reduce(|left, right| binary(operator, left, right));
        definitions.push(definition(name, all.expect("a copy")));
    }
    printed_text(&Ad { definitions })
}

/// The last definitions of an ad, Requirements and Rank among them.
pub fn last_definitions(text: &[u8], count: usize) -> Vec<u8> {
    let mut ad = tree(text);
    ad.definitions.drain(..ad.definitions.len() - count);
    printed_text(&ad)
}
