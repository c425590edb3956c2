//! The operators and real literals: each drawn pair of operands goes through every
//! operator, in the library and in the reference.

pub mod draw;

use crate::cases::Cases;
use crate::report::{Report, Table};
use crate::slot::{self, Words, KINDS};
use classad::sys as library;
use draw::Case;
use reference::rng::Rng;
use reference::tree::{BinaryOperator, UnaryOperator};
use reference::value::{self, Value};

/// Kinds of nodes (docs/LAYOUT.md); the operators follow in the order of `ALL`.
const UNARY_NODE: u64 = 9;
const BINARY_NODE: u64 = 13;

/// Rows of the first table.
const UNARY_ROW: usize = BinaryOperator::ALL.len();
const CONDITIONAL_ROW: usize = UNARY_ROW + UnaryOperator::ALL.len();
const LITERAL_ROW: usize = CONDITIONAL_ROW + 1;
const TEXT_ROW: usize = CONDITIONAL_ROW + 2;
const NO_LITERAL_ROW: usize = CONDITIONAL_ROW + 3;
const NO_OPERATOR_ROW: usize = CONDITIONAL_ROW + 4;
const BLANK_ROW: usize = CONDITIONAL_ROW + 5;

fn rows() -> Vec<&'static str> {
    let mut rows: Vec<&str> = BinaryOperator::ALL.map(BinaryOperator::spelling).to_vec();
    rows.extend(["unary !", "unary +", "unary -", "? :"]);
    rows.extend(["real literal", "real literal as text", "no real literal"]);
    rows.extend(["no operator", "blank operand"]);
    rows
}

pub fn run(cases: &Cases) -> Report {
    let results = Table::new("compared, by answer", &rows(), &KINDS);
    let kinds = &KINDS[1..];
    let pairs = Table::new("pairs of operands", kinds, kinds);
    let mut report = Report::new(cases, vec![results, pairs]);
    for (index, mut rng) in cases.each() {
        let case = Case::draw(&mut rng);
        let mut comparison = Comparison {
            report: &mut report,
            index,
            case: &case,
        };
        comparison.all(&mut rng);
    }
    report
}

/// The comparisons of one case.
struct Comparison<'a> {
    report: &'a mut Report,
    index: u64,
    case: &'a Case,
}

impl<'a> Comparison<'a> {
    fn all(&mut self, rng: &mut Rng) {
        let [left, right, _] = self.case.operands;
        self.report.tables[1].add(left[0] as usize - 1, right[0] as usize - 1);
        self.binary();
        self.unary();
        self.conditional();
        self.literal();
        self.no_operator(rng);
        self.blank_operand(rng);
    }

    fn operand(&self, number: usize) -> Value<'a> {
        let case = self.case;
        slot::value(case.operands[number], &case.memories, number).expect("a drawn value")
    }

    fn expected(&self, value: Value) -> Words {
        slot::words(Some(value), &self.case.operands)
    }

    fn binary(&mut self) {
        let (left, right) = (self.operand(0), self.operand(1));
        for (row, operator) in BinaryOperator::ALL.into_iter().enumerate() {
            let expected = self.expected(value::binary(operator, left, right));
            let got = self.library_binary(BINARY_NODE + row as u64, &self.case.operands);
            self.compare(row, got, expected, |case| case.show(&[0, 1]));
        }
    }

    fn unary(&mut self) {
        let operand = self.operand(0);
        for (number, operator) in UnaryOperator::ALL.into_iter().enumerate() {
            let expected = self.expected(value::unary(operator, operand));
            let got = library_unary(UNARY_NODE + number as u64, &self.case.operands);
            self.compare(UNARY_ROW + number, got, expected, |case| case.show(&[0]));
        }
    }

    /// The third operand is the condition.
    fn conditional(&mut self) {
        let [left, right, condition] = self.case.operands;
        let expected = value::conditional(self.operand(2), self.operand(0), self.operand(1));
        let expected = self.expected(expected);
        let got = library_conditional(&[condition, left, right]);
        self.compare(CONDITIONAL_ROW, got, expected, |case| case.show(&[2, 0, 1]));
    }

    /// Against the reference, and against the standard library's reading of decimals.
    fn literal(&mut self) {
        let (digits, places) = self.case.literal;
        let got = answer(|result| library::real(digits, places, result));
        let show = |_: &Case| format!("digits     {digits}\nplaces     {places}\n");
        if digits >= 10_u64.pow(15) || !(1..15).contains(&places) {
            self.compare(NO_LITERAL_ROW, got, self.expected(Value::Real(0.0)), show);
            return;
        }
        let expected = value::real_literal(digits, places as u32);
        self.compare(LITERAL_ROW, got, self.expected(expected), show);
        let read: f64 = format!("{digits}e-{places}").parse().expect("a decimal");
        self.compare(TEXT_ROW, got, self.expected(Value::Real(read)), show);
    }

    /// A number that is no operator's gives a blank slot.
    fn no_operator(&mut self, rng: &mut Rng) {
        let kind = draw::no_operator(rng);
        let operands = &self.case.operands;
        let got = if rng.chance(50) {
            self.library_binary(kind, operands)
        } else {
            library_unary(kind, operands)
        };
        self.compare(NO_OPERATOR_ROW, got, [slot::BLANK, 0], |case| {
            format!("operator   {kind:#x}\n{}", case.show(&[0, 1]))
        });
    }

    /// A blank operand gives a blank slot.
    fn blank_operand(&mut self, rng: &mut Rng) {
        let mut operands = self.case.operands;
        let blank = rng.below(operands.len());
        operands[blank] = draw::blank(rng);
        let got = match blank {
            2 => library_conditional(&operands),
            1 => self.library_binary(BINARY_NODE + rng.below(15) as u64, &operands),
            _ => library_unary(UNARY_NODE + rng.below(3) as u64, &operands),
        };
        self.compare(BLANK_ROW, got, [slot::BLANK, 0], |_| {
            format!("operands   {operands:#x?}\n")
        });
    }

    fn library_binary(&self, kind: u64, operands: &[Words; 3]) -> Answer {
        let [first, second] = &self.case.memories;
        answer(|result| library::binary(first, second, kind, &operands.concat(), result))
    }

    /// `show` says what went in.
    fn compare(
        &mut self,
        row: usize,
        got: Answer,
        expected: Words,
        show: impl FnOnce(&Case) -> String,
    ) {
        let case = self.case;
        let same = got.words == expected && got.rest_kept;
        let answer = expected[0] as usize;
        self.report.compare(self.index, row, answer, same, || {
            let shown = [got.words, expected].map(|words| slot::show(words, &case.memories));
            let rest = if got.rest_kept {
                ""
            } else {
                ", and words behind it changed"
            };
            let [library, reference] = shown;
            let input = show(case);
            format!("{input}library    {library}{rest}\nreference  {reference}")
        });
    }
}

/// What the library has written.
#[derive(Clone, Copy)]
struct Answer {
    words: Words,
    /// Whether the words behind the result are as they were.
    rest_kept: bool,
}

fn answer(call: impl FnOnce(&mut [u64])) -> Answer {
    const BEFORE: u64 = 0x5555_5555_5555_5555;
    let mut result = [BEFORE; 4];
    call(&mut result);
    let [kind, load, rest @ ..] = result;
    Answer {
        words: [kind, load],
        rest_kept: rest == [BEFORE; 2],
    }
}

fn library_unary(kind: u64, operands: &[Words; 3]) -> Answer {
    answer(|result| library::unary(kind, &operands.concat(), result))
}

fn library_conditional(operands: &[Words; 3]) -> Answer {
    answer(|result| library::conditional(&operands.concat(), result))
}
