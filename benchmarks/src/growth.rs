//! Time against size, for texts and pairs of growing size.

use crate::calls;
use crate::clock::{median, rounds, Timed};
use crate::pairs;
use crate::plot::{Plot, Series};
use crate::texts;

/// Definitions or operands of the growing texts.
const POWERS: [usize; 9] = [1, 2, 4, 8, 16, 32, 64, 128, 256];

/// Nodes of both ads of the growing pairs.
const NODES: [usize; 8] = [16, 32, 64, 128, 256, 512, 1_024, 2_048];

pub fn plots(count: usize) -> [(&'static str, Plot); 2] {
    [
        ("growth-reading.svg", reading(count)),
        ("growth-matching.svg", matching(count)),
    ]
}

/// The median time of each call.
fn medians(count: usize, calls: Vec<Timed>) -> Vec<f64> {
    let all = 0..calls.len();
    let times = rounds(count, calls);
    all.map(|call| median(&times, |round| round[call]))
        .collect()
}

fn reading(count: usize) -> Plot {
    let shape = |name, all: Vec<Vec<u8>>| {
        let point = |text: &Vec<u8>| {
            let calls = vec![calls::library_read(text), calls::reference_read(text)];
            (text.len(), medians(count, calls))
        };
        Series::new(name, all.iter().map(point).collect())
    };
    // 256 definitions end the last one at about 9,000 bytes.
    let lengths = [64, 128, 256, 512, 1_024, 2_048, 4_096, 16_384];
    // 512 operands of 32 bytes would be one byte over the bound.
    let operands = POWERS.map(|power| (2 * power).min(511));
    let late = POWERS.map(texts::late_names).to_vec();
    let early = POWERS.map(texts::early_names).to_vec();
    Plot {
        title: "Reading a text",
        across: "bytes of the text",
        up: "microseconds",
        sizes: vec![64, 256, 1_024, 4_096, 16_384],
        programs: vec!["library", "reference"],
        series: vec![
            shape("names that differ late", late),
            shape("names that differ early", early),
            shape("one sum of names", operands.map(texts::wide_sum).to_vec()),
            shape("a job's definitions", lengths.map(texts::repeated).to_vec()),
        ],
    }
}

/// The nodes of a pair, and the time of each program.
fn matched(count: usize, texts: [Vec<u8>; 2]) -> (usize, Vec<f64>) {
    let pair = [pairs::both(texts)];
    let nodes = pair[0].iter().map(|ad| ad.tree.node_count()).sum();
    let calls = vec![
        calls::library_match(&pair, u16::MAX),
        calls::reference_match(&pair, u16::MAX),
        calls::linear_match(&pair, u16::MAX),
    ];
    (nodes, medians(count, calls))
}

fn matching(count: usize) -> Plot {
    let shape = |name, all: Vec<[Vec<u8>; 2]>| {
        let points = all.into_iter().map(|texts| matched(count, texts));
        Series::new(name, points.collect())
    };
    // 256 definitions a side end the ring at 512 nodes, and the doublings, of which
    // Requirements and Rank are two, at 1,528.
    let doublings = NODES.map(|nodes| (nodes / 6).min(254));
    let ring = NODES.map(|nodes| (nodes / 2).min(256));
    let conditionals = NODES.map(|nodes| nodes / 8);
    let conditional_ring = conditionals.map(pairs::conditional_ring).to_vec();
    Plot {
        title: "Matching two ads",
        across: "nodes of both ads",
        up: "microseconds",
        sizes: NODES.to_vec(),
        programs: vec!["library", "reference", "linear reference"],
        series: vec![
            shape(
                "shared doublings",
                doublings.map(pairs::doubled_twice).to_vec(),
            ),
            shape("ring of references", ring.map(pairs::ring).to_vec()),
            shape(
                "chain of conditionals",
                conditionals.map(pairs::chain).to_vec(),
            ),
            shape("ring of conditionals", conditional_ring),
            shape("job and bench", realistic()),
        ],
    }
}

/// The last definitions of job and bench, then copies of both.
fn realistic() -> Vec<[Vec<u8>; 2]> {
    let ads = [texts::JOB, texts::BENCH];
    let parts = [2, 5, 10, 20].map(|count| ads.map(|ad| texts::last_definitions(ad, count)));
    let more = [1, 2, 4, 6].map(|count| ads.map(|ad| texts::copies(ad, count)));
    [parts, more].concat()
}
