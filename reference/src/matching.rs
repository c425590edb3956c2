//! Table, step, run and match.

use crate::bounds::{self, AdRoom, MatchRoom};
use crate::check::check;
use crate::evaluate::node_value;
use crate::graph::{NodeId, Pair};
use crate::refusal::{Reason, Refusal};
use crate::tree::Ad;
use crate::value::Value;

/// 01: "Each slot of the table is blank or holds a value."
pub type Slot<'a> = Option<Value<'a>>;

/// 01: "Every node of each side has its own slot, 1,024 a side."
#[derive(Clone, Debug, PartialEq)]
pub struct Table<'a> {
    slots: Vec<Slot<'a>>,
}

impl<'a> Table<'a> {
    pub fn blank() -> Table<'a> {
        Table {
            slots: vec![None; bounds::SLOTS],
        }
    }

    pub fn get(&self, id: NodeId) -> Slot<'a> {
        self.slots[id.slot()]
    }

    pub fn set(&mut self, id: NodeId, slot: Slot<'a>) {
        self.slots[id.slot()] = slot;
    }

    pub fn slots(&self) -> &[Slot<'a>] {
        &self.slots
    }
}

/// 01: "whatever values, right or wrong, the slots of the node's needs hold, it puts
/// into the node's slot what the rules make of them, and changes no other slot." A
/// blank need is read as Undefined.
pub fn step<'a>(pair: &Pair<'a>, id: NodeId, table: &mut Table<'a>) {
    let read = |&need| table.get(need).unwrap_or(Value::Undefined);
    let needs: Vec<Value> = pair.needs(id).iter().map(read).collect();
    let value = node_value(pair, id, &needs);
    table.set(id, Some(value));
}

/// 01: "The run starts at any entry ... it makes one step for each further entry in
/// the list's order, over the table as the step before left it, until the budget or
/// the list ends, and counts each." `start` is the k of document 01; the answer is the
/// count.
pub fn run<'a>(
    pair: &Pair<'a>,
    order: &[NodeId],
    start: usize,
    budget: u16,
    table: &mut Table<'a>,
) -> usize {
    let mut steps = 0;
    for &id in order.iter().skip(start).take(usize::from(budget)) {
        step(pair, id, table);
        steps += 1;
    }
    steps
}

/// What a finished match answers besides its steps.
#[derive(Clone, Copy, Debug, PartialEq, Eq)]
pub struct Verdict {
    pub matched: bool,
    pub first_rank: i32,
    pub second_rank: i32,
}

/// A match's answer, with the list and the table as it leaves them.
pub struct Match<'a> {
    /// Present exactly if the match is finished.
    pub verdict: Option<Verdict>,
    pub steps: usize,
    pub order: Vec<NodeId>,
    pub table: Table<'a>,
    /// By side: the root of Requirements, where the ad has one.
    pub requirement_roots: [Option<NodeId>; 2],
}

impl<'a> Match<'a> {
    /// What the Requirements of a side gave; nothing where there is none.
    pub fn requirements(&self, side: usize) -> Slot<'a> {
        self.requirement_roots[side].and_then(|root| self.table.get(root))
    }
}

pub fn match_ads<'a>(first: &'a Ad, second: &'a Ad, budget: u16) -> Result<Match<'a>, Refusal> {
    let rooms = [AdRoom::REQUIRED, AdRoom::REQUIRED];
    match_into(rooms, MatchRoom::REQUIRED, first, second, budget)
}

/// 01: "Matching checks 1, then 10 for the first ad, then 10 for the second".
pub fn match_into<'a>(
    rooms: [AdRoom; 2],
    match_room: MatchRoom,
    first: &'a Ad,
    second: &'a Ad,
    budget: u16,
) -> Result<Match<'a>, Refusal> {
    if !rooms[0].suffices() || !rooms[1].suffices() || !match_room.suffices() {
        return Err(Refusal::whole(Reason::RoomTooSmall));
    }
    check(first)?;
    check(second)?;
    Ok(match_pair(&Pair::new(first, second), budget))
}

/// 01: "A match is this run at k = 0 from a blank table, its count being the steps".
pub fn match_pair<'a>(pair: &Pair<'a>, budget: u16) -> Match<'a> {
    let order = pair.evaluation_order();
    let mut table = Table::blank();
    let steps = run(pair, &order, 0, budget, &mut table);
    let finished = usize::from(budget) >= order.len();
    let verdict = finished.then(|| verdict(pair, &table));
    Match {
        verdict,
        steps,
        order,
        table,
        requirement_roots: [0, 1].map(|side| pair.definition_root(side, b"Requirements")),
    }
}

/// 01: "A budget not below the list's length covers it; the match is then finished and
/// answers verdict, both ranks and steps". "Matched: both Requirements are true,
/// nothing else."
fn verdict(pair: &Pair, table: &Table) -> Verdict {
    Verdict {
        matched: requirements_hold(pair, table, 0) && requirements_hold(pair, table, 1),
        first_rank: rank(pair, table, 0),
        second_rank: rank(pair, table, 1),
    }
}

fn requirements_hold(pair: &Pair, table: &Table, side: usize) -> bool {
    match pair.definition_root(side, b"Requirements") {
        Some(root) => table.get(root) == Some(Value::Boolean(true)),
        None => false,
    }
}

/// 01: "A rank is the Integer if it is 0 or more, otherwise 0 (also for Real, or no
/// Rank at all), and stands unmatched too."
fn rank(pair: &Pair, table: &Table, side: usize) -> i32 {
    let root = pair.definition_root(side, b"Rank");
    match root.and_then(|root| table.get(root)) {
        Some(Value::Integer(value)) if value >= 0 => value,
        _ => 0,
    }
}
