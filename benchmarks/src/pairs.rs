//! Pairs of ads whose match is hard in different ways, by size.

use crate::calls::Both;
use crate::texts::{tree, BENCH, JOB};
use reference::generate::ads::{integer, string};
use reference::print::printed_text;

pub fn both(texts: [Vec<u8>; 2]) -> [Both; 2] {
    texts.map(|text| Both::read(&text).expect("an ad"))
}

pub fn realistic() -> [Vec<u8>; 2] {
    [JOB, BENCH].map(<[u8]>::to_vec)
}

/// `a1 = a0 + a0; a2 = a1 + a1; ..`, so many in all, and Requirements and Rank on the last.
fn doublings(count: usize) -> Vec<u8> {
    let sums = (1..count).map(|place| format!("a{place}=a{0}+a{0};", place - 1));
    let last = count - 1;
    let text = format!(
        "[a0=1;{}Requirements=a{last}==0;Rank=a{last}]",
        sums.collect::<String>()
    );
    text.into_bytes()
}

pub fn doubled(count: usize) -> [Vec<u8>; 2] {
    [doublings(count), b"[Requirements=true]".to_vec()]
}

/// The same in both ads.
pub fn doubled_twice(count: usize) -> [Vec<u8>; 2] {
    [doublings(count), doublings(count)]
}

/// The name of one of so many places; the last of a side is its Requirements.
fn place_name(place: usize, count: usize) -> String {
    if place + 1 == count {
        "Requirements".to_string()
    } else {
        format!("d{place}")
    }
}

/// Both ads of a ring or chain: `expression` says what each place of a side is.
fn sides(count: usize, expression: impl Fn(usize, usize) -> String) -> [Vec<u8>; 2] {
    [0, 1].map(|side| {
        let definitions =
            (0..count).map(|place| place_name(place, count) + "=" + &expression(side, place));
        let joined = definitions.collect::<Vec<String>>().join(";");
        format!("[{joined}]").into_bytes()
    })
}

/// From the first ad's place to the second's same place, and from there to the first's
/// next, the last to the first; so many places a side.
pub fn ring(count: usize) -> [Vec<u8>; 2] {
    sides(count, |side, place| onward(side, place, count))
}

/// The same ring of `d = other.e ? other.e : other.e`.
pub fn conditional_ring(count: usize) -> [Vec<u8>; 2] {
    sides(count, |side, place| {
        conditional(&onward(side, place, count))
    })
}

fn onward(side: usize, place: usize, count: usize) -> String {
    format!("other.{}", place_name((place + side) % count, count))
}

fn conditional(operand: &str) -> String {
    format!("{operand}?{operand}:{operand}")
}

/// `d = other.e ? other.e : other.e`, each on the one before, on the other side; so many a side.
pub fn chain(count: usize) -> [Vec<u8>; 2] {
    sides(count, |side, place| {
        conditional(&match (place + side).checked_sub(1) {
            Some(before) => format!("other.{}", place_name(before, count)),
            None => "true".to_string(),
        })
    })
}

/// The same job with 256 benches that differ in memory, load and number.
pub fn benches() -> Vec<[Vec<u8>; 2]> {
    let bench = tree(BENCH);
    let with = |number: u32| {
        let mut bench = bench.clone();
        for definition in &mut bench.definitions {
            match definition.name.as_slice() {
                b"Memory" => definition.expression = integer(2_048 + 128 * number),
                b"LoadPercent" => definition.expression = integer(number % 100),
                b"Name" => definition.expression = string(format!("bench{number}").as_bytes()),
                _ => {}
            }
        }
        [JOB.to_vec(), printed_text(&bench)]
    };
    (0..256).map(with).collect()
}
