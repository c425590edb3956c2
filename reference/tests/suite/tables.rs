//! Step and run over any table, right or wrong, and the match.

use crate::{ad, shown};
use reference::evaluate::{node_value, Evaluator};
use reference::generate::ads::{large_pair, rich_pair};
use reference::generate::budgets;
use reference::generate::tables::any_table;
use reference::graph::{NodeId, Pair};
use reference::matching::{match_ads, match_pair, run, step, Slot, Table};
use reference::rng::Rng;
use reference::tree::Ad;
use reference::value::{StringValue, Value};

fn id(side: usize, node: usize) -> NodeId {
    NodeId { side, node }
}

/// Sets some slots, makes one step, and answers what the step put there; no other slot
/// may change.
fn stepped(texts: [&str; 2], at: NodeId, slots: &[(NodeId, Slot<'static>)]) -> String {
    let (first, second) = (ad(texts[0]), ad(texts[1]));
    let pair = Pair::new(&first, &second);
    let mut table = Table::blank();
    for &(place, slot) in slots {
        table.set(place, slot);
    }
    let before = table.clone();
    step(&pair, at, &mut table);
    for slot in 0..2_048 {
        if slot != at.slot() {
            assert_eq!(table.slots()[slot], before.slots()[slot]);
        }
    }
    shown(table.get(at).unwrap())
}

#[test]
fn step_takes_what_the_slots_hold() {
    let sum = ["[a = 1 + 2]", "[]"];
    let (left, right, root) = (id(0, 0), id(0, 1), id(0, 2));
    let two = Some(Value::Integer(2));
    let wrong = Some(Value::Real(2.5));
    assert_eq!(
        stepped(sum, root, &[(left, wrong), (right, two)]),
        "0x4012000000000000"
    );
    let wrong = Some(Value::Boolean(true));
    assert_eq!(stepped(sum, root, &[(left, wrong), (right, two)]), "error");
    // A blank need is read as Undefined.
    assert_eq!(
        stepped(sum, root, &[(left, None), (right, two)]),
        "undefined"
    );
    assert_eq!(stepped(sum, root, &[]), "undefined");
    // A literal has no need.
    assert_eq!(
        stepped(sum, left, &[(left, wrong), (right, wrong), (root, wrong)]),
        "1"
    );
}

#[test]
fn step_of_a_reference_takes_its_definition() {
    let chain = ["[a = b; b = 1]", "[c = other.b]"];
    let content = StringValue {
        side: 1,
        node: 4,
        bytes: b"wrong",
    };
    let slot = Some(Value::String(content));
    assert_eq!(stepped(chain, id(0, 0), &[(id(0, 1), slot)]), "\"wrong\"");
    assert_eq!(stepped(chain, id(1, 0), &[(id(0, 1), slot)]), "\"wrong\"");
    assert_eq!(stepped(chain, id(0, 0), &[(id(0, 1), None)]), "undefined");
    // Circular or without a definition: Undefined, whatever any slot holds.
    let seven = Some(Value::Integer(7));
    assert_eq!(
        stepped(["[a = a]", "[]"], id(0, 0), &[(id(0, 0), seven)]),
        "undefined"
    );
    let ring = ["[a = b; b = a]", "[]"];
    assert_eq!(stepped(ring, id(0, 0), &[(id(0, 1), seven)]), "undefined");
    assert_eq!(
        stepped(["[a = gone]", "[]"], id(0, 0), &[(id(0, 0), seven)]),
        "undefined"
    );
}

#[test]
fn step_of_a_conditional_takes_the_slots() {
    let texts = ["[a = true ? 1 : 2]", "[]"];
    let slots = |condition| {
        [
            (id(0, 0), Some(condition)),
            (id(0, 1), Some(Value::Integer(11))),
            (id(0, 2), Some(Value::Integer(12))),
        ]
    };
    assert_eq!(stepped(texts, id(0, 3), &slots(Value::Boolean(true))), "11");
    assert_eq!(
        stepped(texts, id(0, 3), &slots(Value::Boolean(false))),
        "12"
    );
    assert_eq!(
        stepped(texts, id(0, 3), &slots(Value::Undefined)),
        "undefined"
    );
    assert_eq!(stepped(texts, id(0, 3), &slots(Value::Integer(1))), "error");
}

/// A run from any entry over any table: as many steps as budget and list allow, each
/// written slot what the rules make of the slots of its needs, all others unchanged.
fn check_run(rng: &mut Rng, pair: &Pair) {
    let order = pair.evaluation_order();
    let start = rng.below(order.len() + 2);
    let further = order.len().saturating_sub(start);
    for budget in budgets(further) {
        let mut table = any_table(rng, pair);
        let before = table.clone();
        let steps = run(pair, &order, start, budget, &mut table);
        assert_eq!(steps, further.min(usize::from(budget)));
        let written: Vec<NodeId> = order.iter().skip(start).take(steps).copied().collect();
        for slot in 0..2_048 {
            if !written.iter().any(|id| id.slot() == slot) {
                assert_eq!(table.slots()[slot], before.slots()[slot]);
            }
        }
        // A need is written before what needs it and never again, so the last table
        // holds what each step has read.
        for &id in &written {
            let read = |&need: &NodeId| table.get(need).unwrap_or(Value::Undefined);
            let needs: Vec<Value> = pair.needs(id).iter().map(read).collect();
            assert_eq!(table.get(id), Some(node_value(pair, id, &needs)));
        }
    }
}

#[test]
fn run_from_any_entry() {
    let mut rng = Rng::new(41);
    for number in 0..300 {
        let (first, second) = if number % 50 == 0 {
            large_pair(&mut rng)
        } else {
            rich_pair(&mut rng)
        };
        check_run(&mut rng, &Pair::new(&first, &second));
    }
}

/// Wrong values of the first entries stay and are used.
#[test]
fn run_over_wrong_values() {
    let (first, second) = (ad("[a = 1; b = a + a; Rank = b + b]"), ad("[]"));
    let pair = Pair::new(&first, &second);
    let order = pair.evaluation_order();
    assert_eq!(order.len(), 7);
    let mut table = Table::blank();
    table.set(id(0, 0), Some(Value::Integer(10)));
    assert_eq!(run(&pair, &order, 1, 65_535, &mut table), 6);
    assert_eq!(table.get(id(0, 0)), Some(Value::Integer(10)));
    assert_eq!(table.get(id(0, 6)), Some(Value::Integer(40)));
    // From the first entry the wrong value is put right.
    assert_eq!(run(&pair, &order, 0, 65_535, &mut table), 7);
    assert_eq!(table.get(id(0, 6)), Some(Value::Integer(4)));
    // Beyond the list there is nothing to do.
    assert_eq!(run(&pair, &order, 7, 65_535, &mut table), 0);
    assert_eq!(run(&pair, &order, 8, 65_535, &mut table), 0);
}

// Matches.

#[test]
fn match_fills_exactly_its_steps() {
    let mut rng = Rng::new(42);
    for number in 0..300 {
        let (first, second) = if number % 50 == 0 {
            large_pair(&mut rng)
        } else {
            rich_pair(&mut rng)
        };
        check_match(&first, &second);
    }
}

fn check_match(first: &Ad, second: &Ad) {
    let pair = Pair::new(first, second);
    let mut evaluator = Evaluator::new(&pair);
    let length = pair.evaluation_order().len();
    for budget in budgets(length) {
        let result = match_pair(&pair, budget);
        assert_eq!(result.order.len(), length);
        assert_eq!(result.steps, length.min(usize::from(budget)));
        assert_eq!(result.verdict.is_some(), usize::from(budget) >= length);
        // Values are those of the recursion over needs; the rest is blank.
        let mut expected = Table::blank();
        for &id in &result.order[..result.steps] {
            expected.set(id, Some(evaluator.value(id)));
        }
        assert_eq!(result.table, expected);
        if let Some(verdict) = result.verdict {
            let true_value = Some(Value::Boolean(true));
            let first_holds = evaluator.definition(0, b"requirements") == true_value;
            let second_holds = evaluator.definition(1, b"requirements") == true_value;
            assert_eq!(verdict.matched, first_holds && second_holds);
            let ranks = [verdict.first_rank, verdict.second_rank];
            for (side, rank) in ranks.into_iter().enumerate() {
                match evaluator.definition(side, b"rank") {
                    Some(Value::Integer(value)) => assert_eq!(rank, value.max(0)),
                    _ => assert_eq!(rank, 0),
                }
            }
        }
    }
}

#[test]
fn verdicts_by_hand() {
    let verdict = |first: &str, second: &str| {
        let (first, second) = (ad(first), ad(second));
        let verdict = match_ads(&first, &second, 65_535).unwrap().verdict.unwrap();
        (verdict.matched, verdict.first_rank, verdict.second_rank)
    };
    let yes = "[Requirements = true]";
    assert_eq!(verdict(yes, yes), (true, 0, 0));
    for no in ["false", "undefined", "error", "1", "1.0", "\"true\""] {
        let no = format!("[Requirements = {no}]");
        assert_eq!(verdict(&no, yes), (false, 0, 0));
        assert_eq!(verdict(yes, &no), (false, 0, 0));
    }
    assert_eq!(verdict("[]", yes), (false, 0, 0));
    assert_eq!(verdict(yes, "[]"), (false, 0, 0));
    // Ranks stand unmatched too.
    assert_eq!(
        verdict("[rank = 7]", "[RANK = 2147483647]"),
        (false, 7, 2_147_483_647)
    );
    for none in [
        "-1",
        "5.0",
        "true",
        "\"5\"",
        "undefined",
        "error",
        "2147483647 + 1",
    ] {
        let none = format!("[Rank = {none}]");
        assert_eq!(verdict(&none, "[Rank = 3]"), (false, 0, 3));
        assert_eq!(verdict("[Rank = 3]", &none), (false, 3, 0));
    }
    // Names apart from case.
    assert_eq!(
        verdict("[REQUIREMENTS = true]", "[requirements = true]"),
        (true, 0, 0)
    );
}

#[test]
fn slots_by_side() {
    assert_eq!(id(0, 0).slot(), 0);
    assert_eq!(id(0, 1_023).slot(), 1_023);
    assert_eq!(id(1, 0).slot(), 1_024);
    assert_eq!(id(1, 1_023).slot(), 2_047);
}

/// Both ads at the bound of nodes, all of them in the list.
#[test]
fn a_match_of_2048_steps() {
    let text = format!("[Requirements = -1{} == 510]", " + 1".repeat(510));
    let full = ad(&text);
    assert_eq!(full.node_count(), 1_024);
    let short = match_ads(&full, &full, 2_047).unwrap();
    assert_eq!((short.steps, short.verdict.is_some()), (2_047, false));
    let whole = match_ads(&full, &full, 2_048).unwrap();
    assert_eq!(whole.steps, 2_048);
    assert!(!whole.verdict.unwrap().matched);
    assert!(whole.table.slots().iter().all(|slot| slot.is_some()));
}
