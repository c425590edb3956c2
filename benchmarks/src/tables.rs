//! What is timed: reading, checking, printing and matching.

use crate::calls::{self, Both, Rooms};
use crate::clock::{median, percentile, rounds, Round, Timed};
use crate::lines::Table;
use crate::markdown::{self, microseconds, whole};
use crate::{pairs, texts};
use reference::bounds;
use reference::tree::Ad;

type Text = (&'static str, Vec<u8>);
type Pairs = (&'static str, Vec<[Both; 2]>);

/// The second program as it is, and with its linear search for circular references.
const REFERENCE: &str = "reference";
const LINEAR: &str = "linear reference";

fn all_texts() -> Vec<Text> {
    vec![
        ("no ad: one byte", b"x".to_vec()),
        ("small ad", texts::small()),
        ("job of 40 definitions", texts::JOB.to_vec()),
        ("256 names that differ late", texts::late_names(256)),
        ("256 names that differ early", texts::early_names(256)),
        ("1,023 nodes in a sum", texts::sum(512, 0)),
        ("the same in 14 parentheses each", texts::sum(512, 14)),
        ("512 operands, every level between", texts::levels(512)),
        (
            "blanks before the last token",
            texts::padded(b"[a=1".to_vec()),
        ),
        ("15 strings of 1,024 bytes", texts::strings()),
    ]
}

fn all_pairs() -> Vec<Pairs> {
    let one = |texts| vec![pairs::both(texts)];
    let most = bounds::DEFINITIONS;
    vec![
        ("(a) 200 shared names, doubled", one(pairs::doubled(200))),
        ("(b) 512 definitions in one ring", one(pairs::ring(most))),
        ("(c) 1,533 references in one chain", one(pairs::chain(most))),
        ("(d) job and bench, 40 definitions", one(pairs::realistic())),
        (
            "(e) the job and 256 such benches",
            pairs::benches().into_iter().map(pairs::both).collect(),
        ),
        (
            "(f) 512 conditionals in one ring",
            one(pairs::conditional_ring(most)),
        ),
    ]
}

/// All tables over so many passes, whose rounds are taken together, and at the end what the
/// library gives against itself. A pass goes through all lines, so that what disturbs one minute
/// does not stand in one line alone.
pub fn run(passes: usize, count: usize) -> String {
    let (texts, pairs) = (all_texts(), all_pairs());
    let mut tables = pass(count, &texts, &pairs);
    for _ in 1..passes {
        for (table, more) in tables.iter_mut().zip(pass(count, &texts, &pairs)) {
            table.pool(more);
        }
    }
    let text: String = tables.iter().map(Table::text).collect();
    text + &transitions(&pairs) + &shares(passes * count, &pairs) + &noise(&tables)
}

fn pass(count: usize, texts: &[Text], pairs: &[Pairs]) -> [Table; 4] {
    let [checking, printing] = stored(count, texts);
    let matching = matching(count, pairs);
    [reading(count, texts), checking, printing, matching]
}

fn reading(count: usize, texts: &[Text]) -> Table {
    let memory = "cleared by the call, all 4,864 words and 16,384 bytes before reading and again after a refusal";
    let facts = ["Text", "bytes", "definitions, nodes"];
    let mut table = Table::new("Reading", memory, &facts, &[REFERENCE]);
    for (name, text) in texts {
        let counts = Both::read(text).map_or("refused".to_string(), |ad| counts(&ad.tree));
        let calls = vec![
            calls::library_read(text),
            calls::reference_read(text),
            calls::library_read(text),
        ];
        table.add(name, &[whole(text.len() as u64), counts], count, calls);
    }
    table
}

fn counts(ad: &Ad) -> String {
    let [definitions, nodes] = [ad.definitions.len(), ad.node_count()];
    format!("{definitions}, {}", whole(nodes as u64))
}

/// Checking and printing of the ads that the texts hold, each ad once.
fn stored(count: usize, texts: &[Text]) -> [Table; 2] {
    let memory = "nothing is cleared; the check looks at all 4,864 words and 16,384 bytes";
    let mut tables = ["Checking", "Printing, which checks first"]
        .map(|title| Table::new(title, memory, &["Ad", "bytes of the print"], &[REFERENCE]));
    let mut seen: Vec<Ad> = Vec::new();
    for (name, text) in texts {
        let Some(ad) = Both::read(text).filter(|ad| !seen.contains(&ad.tree)) else {
            continue;
        };
        add_stored(count, name, &ad, &mut tables);
        seen.push(ad.tree);
    }
    tables
}

/// A print that is too long is refused, and not timed.
fn add_stored(count: usize, name: &str, ad: &Both, [checking, printing]: &mut [Table; 2]) {
    let (memories, trees) = ([&ad.stored], [&ad.tree]);
    let length = calls::print_length(&ad.stored);
    let facts = [whole(length)];
    let calls = vec![
        calls::library_check(&memories),
        calls::reference_check(&trees),
        calls::library_check(&memories),
    ];
    checking.add(name, &facts, count, calls);
    if length <= bounds::TEXT_BYTES as u64 {
        let calls = vec![
            calls::library_print(&ad.stored),
            calls::reference_print(&ad.tree),
            calls::library_print(&ad.stored),
        ];
        printing.add(name, &facts, count, calls);
    }
}

fn matching(count: usize, all: &[Pairs]) -> Table {
    let memory = "table, list and the traversal's marks are cleared by the call";
    let mut table = Table::new("Matching", memory, &["Pair"], &[REFERENCE, LINEAR]);
    for (name, pairs) in all {
        let calls = vec![
            calls::library_match(pairs, u16::MAX),
            calls::reference_match(pairs, u16::MAX),
            calls::linear_match(pairs, u16::MAX),
            calls::library_match(pairs, u16::MAX),
        ];
        table.add(name, &[], count, calls);
    }
    table
}

/// Sums over all pairs of a line: n nodes of both ads, and the transitions beside their bound.
fn transitions(all: &[Pairs]) -> String {
    let row = |(name, pairs): &Pairs| {
        let mut rooms = Rooms::zero();
        let answers = pairs.iter().map(|pair| rooms.matched(pair, u16::MAX));
        let (steps, transitions) = answers.fold((0, 0), |(steps, transitions), answer| {
            (steps + answer[5], transitions + answer[6])
        });
        let [first, second] = [0, 1].map(|side| {
            let ads = pairs.iter().map(|pair| &pair[side].tree);
            ads.map(Ad::node_count).sum::<usize>() as u64
        });
        let nodes = first + second;
        let sides = format!("{} + {}", whole(first), whole(second));
        let numbers = [nodes, steps, transitions, 16 * nodes].map(whole);
        [vec![name.to_string(), sides], numbers.to_vec()].concat()
    };
    let heads = ["Pair", "nodes", "n", "list", "transitions", "16 n"];
    let rows: Vec<Vec<String>> = all.iter().map(row).collect();
    format!("Transitions\n\n{}\n", markdown::table(&heads, &rows))
}

fn shares(count: usize, all: &[Pairs]) -> String {
    let rows = all.iter().flat_map(|pairs| shares_of(count, pairs));
    let heads = ["Pair", "", "check", "traversal", "run"];
    let table = markdown::table(&heads, &rows.collect::<Vec<Vec<String>>>());
    format!("Shares of a match\n\n{table}\n")
}

/// Check of both ads; traversal, which is what a match with budget 0 takes beside that; run,
/// which is what a whole match takes beside that one.
fn shares_of(count: usize, (name, pairs): &Pairs) -> Vec<Vec<String>> {
    let memories: Vec<_> = pairs.iter().flatten().map(|ad| &ad.stored).collect();
    let trees: Vec<_> = pairs.iter().flatten().map(|ad| &ad.tree).collect();
    let by = |check, matching: fn(&[[Both; 2]], u16) -> Timed<'_>| {
        vec![check, matching(pairs, 0), matching(pairs, u16::MAX)]
    };
    let library = by(calls::library_check(&memories), calls::library_match);
    let reference = by(calls::reference_check(&trees), calls::reference_match);
    let linear = by(calls::reference_check(&trees), calls::linear_match);
    let programs = [
        (*name, "library", library),
        ("", REFERENCE, reference),
        ("", LINEAR, linear),
    ];
    let row = |(name, program, calls): (&str, &str, Vec<Timed>)| {
        let times = rounds(count.div_ceil(2), calls);
        let check = share(&times, |round| round[0]);
        let traversal = share(&times, |round| round[1] - round[0]);
        let run = share(&times, |round| round[2] - round[1]);
        vec![name.to_string(), program.to_string(), check, traversal, run]
    };
    programs.into_iter().map(row).collect()
}

/// A median; none where so many rounds give nothing that noise hides it.
fn share(times: &[Round], asked: impl Fn(&Round) -> f64) -> String {
    if percentile(times, 0.1, &asked) <= 0.0 {
        return String::new();
    }
    microseconds(median(times, asked))
}

/// How far the library's ratio to itself lies from 1, over all lines: the machine's noise.
fn noise(tables: &[Table]) -> String {
    let all: Vec<[f64; 3]> = tables.iter().flat_map(Table::noise).collect();
    let least = |part: usize| all.iter().map(|line| line[part]).fold(f64::MAX, f64::min);
    let most = |part: usize| all.iter().map(|line| line[part]).fold(0.0, f64::max);
    format!(
        "The library timed against itself, over these {} lines: medians {:.2} to {:.2}, \
         10th percentiles from {:.2}, 90th up to {:.2}\n",
        all.len(),
        least(0),
        most(0),
        least(1),
        most(2)
    )
}
