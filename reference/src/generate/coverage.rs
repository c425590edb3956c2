//! What a run of inputs has hit: refusal numbers, node kinds, value kinds, verdicts.

use super::{budgets, outputs, Body, Input};
use crate::bounds::{AdRoom, MatchRoom};
use crate::check::check;
use crate::graph::Pair;
use crate::matching::{match_into, match_pair, Match};
use crate::print::{print_into, printed_text};
use crate::read::{read, read_into};
use crate::refusal::{Reason, Refusal};
use crate::tree::{Ad, BinaryOperator, Expression, Literal, Scope, UnaryOperator};
use std::collections::BTreeMap;
use std::fmt;

/// Every kind that a node can have.
pub fn node_kinds() -> Vec<String> {
    let leaves = [
        "undefined",
        "error",
        "true",
        "false",
        "Integer",
        "Real",
        "String",
        "name",
        "other.name",
    ];
    let mut kinds: Vec<String> = leaves.map(String::from).to_vec();
    kinds.extend(UnaryOperator::ALL.map(|operator| format!("unary {}", operator.spelling())));
    kinds.extend(BinaryOperator::ALL.map(|operator| operator.spelling().to_string()));
    kinds.push("? :".to_string());
    kinds
}

fn node_kind(expression: &Expression) -> String {
    match expression {
        Expression::Literal(Literal::Undefined) => "undefined".to_string(),
        Expression::Literal(Literal::Error) => "error".to_string(),
        Expression::Literal(Literal::Boolean(value)) => value.to_string(),
        Expression::Literal(Literal::Integer(_)) => "Integer".to_string(),
        Expression::Literal(Literal::Real { .. }) => "Real".to_string(),
        Expression::Literal(Literal::String(_)) => "String".to_string(),
        Expression::Reference(Scope::Own, _) => "name".to_string(),
        Expression::Reference(Scope::Other, _) => "other.name".to_string(),
        Expression::Unary(operator, _) => format!("unary {}", operator.spelling()),
        Expression::Binary(operator, ..) => operator.spelling().to_string(),
        Expression::Conditional(..) => "? :".to_string(),
    }
}

const VALUE_KINDS: [&str; 6] = ["Undefined", "Error", "Boolean", "Integer", "Real", "String"];
const OUTCOMES: [&str; 4] = ["matched", "unmatched", "not done", "circular reference"];

/// Counts by family, refusal number, node kind, value kind and outcome.
pub struct Coverage {
    inputs: BTreeMap<&'static str, usize>,
    refusals: BTreeMap<usize, usize>,
    nodes: BTreeMap<String, usize>,
    values: BTreeMap<&'static str, usize>,
    outcomes: BTreeMap<&'static str, usize>,
}

impl Coverage {
    pub fn new() -> Coverage {
        Coverage {
            inputs: BTreeMap::new(),
            refusals: Reason::ALL
                .iter()
                .map(|reason| (reason.number(), 0))
                .collect(),
            nodes: node_kinds().into_iter().map(|kind| (kind, 0)).collect(),
            values: VALUE_KINDS.iter().map(|&kind| (kind, 0)).collect(),
            outcomes: OUTCOMES.iter().map(|&outcome| (outcome, 0)).collect(),
        }
    }

    /// Puts one input through the program and counts what it hits.
    pub fn take(&mut self, input: &Input) {
        *self.inputs.entry(input.family).or_insert(0) += 1;
        match &input.body {
            Body::Text(text) => self.take_text(text),
            Body::Tree(ad) => self.take_tree(ad),
            Body::Pair(first, second) => self.take_pair(first, second),
            Body::Rooms(rooms, match_room) => self.take_rooms(*rooms, *match_room),
        }
    }

    fn count_refusal<T>(&mut self, answer: Result<T, Refusal>) {
        if let Err(refusal) = answer {
            *self.refusals.entry(refusal.number()).or_insert(0) += 1;
        }
    }

    fn count_nodes(&mut self, ad: &Ad) {
        ad.walk(&mut |node| *self.nodes.entry(node_kind(node)).or_insert(0) += 1);
    }

    fn take_text(&mut self, text: &[u8]) {
        let answer = read(text);
        if let Ok(ad) = &answer {
            self.count_nodes(ad);
            self.take_tree(ad);
        }
        self.count_refusal(answer);
    }

    fn take_tree(&mut self, ad: &Ad) {
        let well_formed = check(ad);
        if well_formed.is_ok() {
            for output in outputs(printed_text(ad).len()) {
                self.count_refusal(print_into(AdRoom::REQUIRED, ad, output));
            }
        }
        self.count_refusal(well_formed);
    }

    fn take_pair(&mut self, first: &[u8], second: &[u8]) {
        let (first, second) = (read(first), read(second));
        if let (Ok(first), Ok(second)) = (&first, &second) {
            self.count_nodes(first);
            self.count_nodes(second);
            let pair = Pair::new(first, second);
            let circular = pair.circular_references().len();
            *self.outcomes.entry("circular reference").or_insert(0) += circular;
            for budget in budgets(pair.evaluation_order().len()) {
                self.count_match(&match_pair(&pair, budget));
            }
        }
        self.count_refusal(first);
        self.count_refusal(second);
    }

    fn count_match(&mut self, result: &Match) {
        let outcome = match result.verdict {
            None => "not done",
            Some(verdict) if verdict.matched => "matched",
            Some(_) => "unmatched",
        };
        *self.outcomes.entry(outcome).or_insert(0) += 1;
        for value in result.table.slots().iter().flatten() {
            *self.values.entry(value.kind()).or_insert(0) += 1;
        }
    }

    fn take_rooms(&mut self, rooms: [AdRoom; 2], match_room: MatchRoom) {
        let ad = Ad::default();
        self.count_refusal(read_into(rooms[0], b"[]"));
        self.count_refusal(print_into(rooms[0], &ad, 2));
        self.count_refusal(match_into(rooms, match_room, &ad, &ad, 0));
    }

    /// Everything that the run has not hit.
    pub fn gaps(&self) -> Vec<String> {
        let mut gaps = Vec::new();
        let missing = |counts: Vec<(String, usize)>| {
            counts
                .into_iter()
                .filter(|(_, count)| *count == 0)
                .map(|(name, _)| name)
        };
        gaps.extend(missing(named("refusal ", &self.refusals)));
        gaps.extend(missing(named("node ", &self.nodes)));
        gaps.extend(missing(named("value ", &self.values)));
        gaps.extend(missing(named("", &self.outcomes)));
        gaps
    }
}

impl Default for Coverage {
    fn default() -> Coverage {
        Coverage::new()
    }
}

fn named<K: fmt::Display>(prefix: &str, counts: &BTreeMap<K, usize>) -> Vec<(String, usize)> {
    let name = |(kind, count): (&K, &usize)| (format!("{prefix}{kind}"), *count);
    counts.iter().map(name).collect()
}

impl fmt::Display for Coverage {
    fn fmt(&self, f: &mut fmt::Formatter) -> fmt::Result {
        for (name, count) in named("input: ", &self.inputs)
            .into_iter()
            .chain(named("refusal ", &self.refusals))
            .chain(named("node ", &self.nodes))
            .chain(named("value ", &self.values))
            .chain(named("", &self.outcomes))
        {
            writeln!(f, "{count:>9}  {name}")?;
        }
        match self.gaps() {
            gaps if gaps.is_empty() => writeln!(f, "gaps: none"),
            gaps => writeln!(f, "gaps: {}", gaps.join(", ")),
        }
    }
}
