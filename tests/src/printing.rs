//! Prints of stored ads: the library's against the reference's, with the whole output, and
//! the print read back.

use crate::cases::Cases;
use crate::layout::Stored;
use crate::memory::{noise_bytes, Rooms};
use crate::report::{first_difference, plain, Report, Table};
use crate::sample::Sample;
use crate::shrink::shrunk_samples;
use crate::stored::{families, Samples};
use classad::sys as library;
use reference::bounds::{self, AdRoom};
use reference::print::{print_into, printed_text};
use reference::rng::Rng;
use reference::tree::{Ad, Definition, Expression};

const ANSWERS: [&str; 4] = ["printed", "1", "10", "11"];
const READ_BACK: &str = "print read back";

/// How much of a print is shown.
const SHOWN: usize = 400;

pub fn run(cases: &Cases) -> Report {
    let mut rows = families();
    rows.push(READ_BACK);
    let answers = Table::new("compared, by answer", &rows, &ANSWERS);
    let outputs = Table::new("output", &OUTPUTS, &ANSWERS);
    let mut report = Report::new(cases, vec![answers, outputs]);
    let samples = Samples::new();
    for (index, mut rng) in cases.each() {
        let (family, sample) = samples.draw(&mut rng, 8);
        let rooms = Rooms::draw(&mut rng, 1);
        let output = Output::draw(&mut rng, &sample);
        let (got, expected) = both(&sample, &rooms, &output);
        let answer = column(expected.answer[0]);
        let same = got == expected;
        report.tables[1].add(output.kind, answer);
        report.compare(index, family, answer, same, || {
            describe(&sample, &rooms, &output)
        });
        if same && answer == 0 {
            let text = &got.output[..got.answer[1] as usize];
            let same = reads_back(text, &sample, &rooms);
            report.compare(index, rows.len() - 1, 0, same, || {
                format!("print      {}\n", plain(text, SHOWN))
            });
        }
    }
    report
}

fn column(number: u64) -> usize {
    match number {
        0 | 1 => number as usize,
        10 => 2,
        _ => 3,
    }
}

/// Sizes of the output beside the print's length.
const OUTPUTS: [&str; 8] = [
    "exact",
    "one byte less",
    "one byte more",
    "up to 999 more",
    "16,384",
    "over 16,384",
    "empty",
    "any less",
];

struct Output {
    kind: usize,
    seed: u64,
    draw: usize,
}

impl Output {
    fn draw(rng: &mut Rng, sample: &Sample) -> Output {
        // A print longer than 16,384 bytes is refused in any output.
        let long = printed_text(&sample.ad).len() >= bounds::TEXT_BYTES - 4;
        let kind = match rng.below(if long { 8 } else { 16 }) {
            kind if kind < OUTPUTS.len() => kind,
            more => [0, 2, 3, 3, 4, 4, 5, 5][more - OUTPUTS.len()],
        };
        Output {
            kind,
            seed: rng.bits(),
            draw: rng.below(1_000),
        }
    }

    /// Beside a print of this length.
    fn size(&self, length: usize) -> usize {
        match self.kind {
            0 => length,
            1 => length.saturating_sub(1),
            2 => length + 1,
            3 => length + self.draw,
            4 => bounds::TEXT_BYTES,
            5 => bounds::TEXT_BYTES + 1 + self.draw,
            6 => 0,
            _ => self.draw * length / 1_000,
        }
    }

    fn noise(&self, sample: &Sample) -> Vec<u8> {
        noise_bytes(self.seed, self.size(printed_text(&sample.ad).len()))
    }
}

/// What a call answers and leaves: 0 and the print's length, or a refusal's number and 0.
#[derive(PartialEq, Eq)]
struct Outcome {
    answer: [u64; 2],
    output: Vec<u8>,
    memory: Stored,
}

fn both(sample: &Sample, rooms: &Rooms, output: &Output) -> (Outcome, Outcome) {
    let memory = rooms.holding(&sample.memory());
    let before = memory.clone();
    let noise = output.noise(sample);
    let mut answer = [u64::MAX; 2];
    let mut output = noise.clone();
    library::print(&memory.words, &memory.bytes, &mut output, &mut answer);
    let got = Outcome {
        answer,
        output,
        memory,
    };
    (got, by_reference(sample, rooms, noise, before))
}

fn by_reference(sample: &Sample, rooms: &Rooms, noise: Vec<u8>, memory: Stored) -> Outcome {
    let mut output = noise;
    let answer = expected(rooms.tree(sample).as_ref(), &mut output);
    Outcome {
        answer,
        output,
        memory,
    }
}

/// The answer for a tree, or for the refusal of its memory; and in the output what it should
/// hold.
pub fn expected(tree: Result<&Ad, &u64>, output: &mut [u8]) -> [u64; 2] {
    let text = tree.map_err(|number| *number).and_then(|ad| {
        let text = print_into(AdRoom::REQUIRED, ad, output.len());
        text.map_err(|refusal| refusal.number() as u64)
    });
    written(text, output)
}

/// The text stands in front and the bytes after it stay; a refusal leaves all unchanged.
pub fn written(text: Result<Vec<u8>, u64>, output: &mut [u8]) -> [u64; 2] {
    match text {
        Err(number) => [number, 0],
        Ok(text) => {
            output[..text.len()].copy_from_slice(&text);
            [0, text.len() as u64]
        }
    }
}

/// The print of an expression by itself: what the print of an ad with that one expression has
/// between name and bracket.
pub fn expression_text(expression: &Expression) -> Vec<u8> {
    let definition = Definition {
        name: b"a".to_vec(),
        expression: expression.clone(),
    };
    let printed = printed_text(&Ad {
        definitions: vec![definition],
    });
    printed["[a = ".len()..printed.len() - 1].to_vec()
}

/// The library reads its print, and the memory is again that of the ad.
fn reads_back(text: &[u8], sample: &Sample, rooms: &Rooms) -> bool {
    let mut memory = rooms.noise();
    let mut answer = [u64::MAX; 3];
    library::read(text, &mut memory.words, &mut memory.bytes, &mut answer);
    let content = sample.memory();
    answer[0] == 0
        && memory.words[..content.words.len()] == content.words
        && memory.bytes[..content.bytes.len()] == content.bytes
}

fn describe(sample: &Sample, rooms: &Rooms, output: &Output) -> String {
    let [small] = shrunk_samples(std::array::from_ref(sample), |[sample]| {
        let (got, expected) = both(sample, rooms, output);
        got != expected
    });
    let (got, expected) = both(&small, rooms, output);
    let mut lines = format!("ad         {}", small.show());
    lines += &format!("memory     {}\n", rooms.show());
    lines += &format!("output     {} bytes\n", expected.output.len());
    lines += &format!("library    {}\n", show(&got));
    lines += &format!("reference  {}\n", show(&expected));
    lines += &first_difference("byte", &got.output, &expected.output);
    if got.memory != expected.memory {
        lines += "the ad's memory changed\n";
    }
    lines
}

fn show(outcome: &Outcome) -> String {
    let [number, length] = outcome.answer;
    if number != 0 {
        return format!("refused {number}, then {length}");
    }
    let end = outcome.output.len().min(length as usize);
    let shown = plain(&outcome.output[..end], SHOWN);
    format!("printed, {length} bytes: {shown}")
}
