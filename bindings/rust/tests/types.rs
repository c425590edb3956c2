//! The types over the library: what they keep apart and what they hand back.

use classad::bounds::{BYTES, NODES, WORDS};
use classad::{Ad, Dependencies, Entry, Match, Refusal, Side, Value};

fn ad(text: &str) -> Ad {
    text.parse().unwrap()
}

fn refusal(text: &[u8]) -> Refusal {
    Ad::read(text).unwrap_err()
}

/// The value of an expression as the Rank of an ad beside `[]`.
fn shown(expression: &str) -> String {
    let first = ad(&format!("[Rank = {expression}]"));
    let second = ad("[]");
    let root = first.definition("rank").unwrap().root;
    let value = Match::new(&first, &second).value(Side::First, root);
    value.unwrap().to_string()
}

#[test]
fn no_budget_below_the_list_gives_a_verdict() {
    let first = ad("[Requirements = true; Rank = 3]");
    let second = ad("[Requirements = true; Rank = 4]");
    for budget in 0..4 {
        let short = Match::with_budget(&first, &second, budget);
        assert!(!short.is_finished() && !short.is_matched());
        assert_eq!((short.verdict(), short.ranks()), (None, None));
        assert_eq!((short.steps(), short.list().len()), (budget.into(), 4));
    }
    let finished = Match::with_budget(&first, &second, 4);
    assert!(finished.is_finished() && finished.is_matched());
    assert_eq!(finished.ranks(), Some((3, 4)));
}

#[test]
fn only_true_requirements_match() {
    let second = ad("[Requirements = true]");
    let matched = |requirements: &str| {
        let first = ad(&format!("[Requirements = {requirements}]"));
        let finished = Match::new(&first, &second);
        assert_eq!(finished.verdict(), Some(finished.is_matched()));
        finished.is_matched()
    };
    assert!(matched("true") && matched("undefined || true"));
    let others = [
        "false",
        "undefined",
        "error",
        "1",
        "1.0",
        "\"true\"",
        "none",
    ];
    assert!(others.iter().all(|requirements| !matched(requirements)));
}

#[test]
fn values_of_every_kind() {
    let expected = [
        ("undefined", "undefined"),
        ("1 / 0", "error"),
        ("1 < 2", "true"),
        ("2147483647 + 1", "-2147483648"),
        ("0.1 + 0.2", "0.30000000000000004"),
        ("-(0.0)", "-0.0"),
        ("-1 / 0.0", "-infinity"),
        ("0.0 / 0.0", "not-a-number"),
        ("true ? \"a\\\\\" : 1", "\"a\\\\\""),
    ];
    for (expression, value) in expected {
        assert_eq!(shown(expression), value, "{expression}");
    }
}

#[test]
fn strings_are_parts_of_the_ad_that_has_them() {
    let first = ad("[Rank = other.name]");
    let second = ad("[name = \"second\"]");
    let finished = Match::new(&first, &second);
    let Some(Value::String(bytes)) = finished.value(Side::First, 0) else {
        panic!("{:?}", finished.value(Side::First, 0));
    };
    assert_eq!(bytes, b"second");
    assert!(second.stored().1.as_ptr_range().contains(&bytes.as_ptr()));
}

#[test]
fn nodes_that_are_not_there() {
    let first = ad("[a = 1; Requirements = b]");
    let unneeded = Match::new(&first, &first);
    assert_eq!(unneeded.value(Side::First, 0), None);
    assert_eq!(unneeded.value(Side::First, 2), None);
    assert_eq!(unneeded.value(Side::First, NODES), None);
    assert_eq!(unneeded.value(Side::Second, usize::MAX), None);
    assert!(first.definition_of(usize::MAX).is_none());
    assert_eq!(first.expression(usize::MAX), Ok(None));
    let found = Dependencies::new(&first, &first);
    assert!(!found.is_circular(Side::First, NODES));
}

#[test]
fn definitions_are_found_in_any_case() {
    let empty = ad("[]");
    assert!(empty.definition("a").is_none() && empty.definition("").is_none());
    assert_eq!(
        (empty.definitions().len(), empty.references().count()),
        (0, 0)
    );
    let bench = ad("[Free = 1 + x; _a = \"b\"; requirements = OTHER . Free]");
    let found = |name| bench.definition(name).map(|it| (it.name, it.root));
    assert_eq!(found("FREE"), Some(("Free", 2)));
    assert_eq!(found("_A"), Some(("_a", 3)));
    assert_eq!(found("Requirements"), Some(("requirements", 4)));
    assert_eq!([found("Fre"), found("Freee"), found("x")], [None; 3]);
    let texts: Vec<String> = bench
        .definitions()
        .map(|it| format!("{} = {}", it.name, it.expression().unwrap()))
        .collect();
    assert_eq!(bench.to_string(), format!("[{}]", texts.join("; ")));
    let references = bench.references().map(|it| (it.node, it.name, it.is_other));
    let expected = [(1, "x", false), (4, "Free", true)];
    assert_eq!(references.collect::<Vec<_>>(), expected);
}

#[test]
fn requirements_and_ranks_of_each_side() {
    let first = ad("[REQUIREMENTS = true; Rank = other.a]");
    let second = ad("[a = 2; Rank = -1]");
    let finished = Match::new(&first, &second);
    let values = [Side::First, Side::Second].map(|side| finished.requirements(side));
    assert_eq!(values, [Some(Value::Boolean(true)), None]);
    let ranks = [Side::First, Side::Second].map(|side| finished.rank(side));
    assert_eq!(ranks, [Some(2), Some(0)]);
    let short = Match::with_budget(&first, &second, 0);
    assert_eq!(short.requirements(Side::First), None);
    assert_eq!(short.rank(Side::First), None);
    assert_eq!(Side::First.other(), Side::Second);
    assert_eq!(Side::Second.other(), Side::First);
}

#[test]
fn the_list_is_that_of_the_dependencies() {
    let first = ad("[a = other.b; Requirements = a]");
    let second = ad("[b = other.a; Requirements = true]");
    let found = Dependencies::new(&first, &second);
    let entry = |side, node| Entry { side, node };
    let circular = [entry(Side::First, 0), entry(Side::Second, 0)];
    assert_eq!(found.circular().collect::<Vec<_>>(), circular);
    assert!(found.is_circular(Side::Second, 0) && !found.is_circular(Side::First, 1));
    let matching = Match::with_budget(&first, &second, 0);
    let list = [
        entry(Side::First, 0),
        entry(Side::First, 1),
        entry(Side::Second, 1),
    ];
    assert_eq!(matching.list(), list);
    assert_eq!(found.list(), list);
    assert_eq!(found.transitions(), matching.transitions());
}

#[test]
fn stored_memory_is_checked() {
    let kept = ad("[a = \"x\"; b = a]");
    let (words, bytes) = kept.stored();
    assert_eq!((words.len(), bytes.len()), (WORDS, BYTES));
    let (mut more_words, mut more_bytes) = (words.to_vec(), bytes.to_vec());
    more_words.push(7);
    more_bytes.push(7);
    assert_eq!(Ad::from_stored(&more_words, &more_bytes), Ok(kept.clone()));
    let small = Err(Refusal::MemoryTooSmall);
    assert_eq!(Ad::from_stored(&words[..WORDS - 1], bytes), small);
    assert_eq!(Ad::from_stored(words, &bytes[..BYTES - 1]), small);
    more_bytes[BYTES - 1] = 1;
    let damaged = Ad::from_stored(words, &more_bytes);
    assert_eq!(damaged, Err(Refusal::NotWellFormed));
}

/// Holds the refusal of a text to how it is shown behind `refused `.
fn holds(text: &str, shown: &str) {
    let refused = refusal(text.as_bytes());
    assert_eq!(refused.to_string(), format!("refused {shown}"), "{text}");
    assert!(shown.ends_with(&format!(": {}", refused.phrase())));
    assert!(shown.starts_with(&format!("{} at ", refused.number())));
}

/// Holds the refusal of an expression, which starts at byte 5, to its number and phrase.
fn holds_within(expression: &str, number: u8, phrase: &str) {
    let text = format!("[a = {expression}]");
    holds(
        &text,
        &format!("{number} at 5 (line 1, column 6): {phrase}"),
    );
}

#[test]
fn refusals_of_a_token_have_a_cause() {
    holds_within("& c", 3, "no token starts here");
    holds_within("\"x\ty\"", 3, "bad byte in a string");
    holds_within("\"x\u{e4}\"", 3, "bad byte in a string");
    holds_within("\"\n\\r\"", 3, "bad byte in a string");
    holds_within("\"\\r\n\"", 3, "bad escape in a string");
    holds_within("\"\\\n\"", 3, "bad escape in a string");
    holds_within("\"\\\"", 3, "string not closed");
    holds("[a = \"\\", "3 at 5 (line 1, column 6): string not closed");
    holds_within("2147483648", 5, "Integer over 2,147,483,647");
    holds_within("2147483648.", 5, "Integer over 2,147,483,647");
    holds_within("1234567890123.456", 5, "Real over 15 digits");
    holds_within(&"n".repeat(65), 7, "name over 64 bytes");
    let string = format!("\"{}\"", "s".repeat(1_025));
    holds_within(&string, 7, "string over 1,024 bytes");
}

#[test]
fn refusals_of_a_text_have_a_place_and_a_cause() {
    holds(
        "[a = 1 2]",
        "4 at 7 (line 1, column 8): token does not fit here",
    );
    holds("[a = 1\n", "4 at 7 (line 2, column 1): text ends early");
    holds("", "4 at 0 (line 1, column 1): text ends early");
    let deep = format!("[a = {}1]", "-".repeat(65));
    holds(
        &deep,
        "6 at 69 (line 1, column 70): nested deeper than level 64",
    );
    holds(
        "[a = 1; A = 2]",
        "8 at 8 (line 1, column 9): name defined twice",
    );
    let definitions: String = (0..257).map(|it| format!("d{it} = 1;\n ")).collect();
    let many = format!("[{definitions}]");
    holds(
        &many,
        "9 at 2707 (line 257, column 2): over 256 definitions",
    );
    let nodes = format!("[a = \";\"\n{}]", "+ 1\n".repeat(512));
    holds(&nodes, "9 at 2055 (line 513, column 3): over 1,024 nodes");
}

#[test]
fn refusals_without_a_place() {
    let long = refusal(&[b' '; 16_385]);
    assert_eq!((long, long.place()), (Refusal::TextTooLong, None));
    assert_eq!(
        (long.number(), long.phrase()),
        (2, "text over 16,384 bytes")
    );
    let error: Box<dyn std::error::Error> = long.into();
    assert_eq!(error.to_string(), "refused 2 at 0: text over 16,384 bytes");
}

#[test]
fn a_print_that_is_too_long_is_refused() {
    let strings = vec![format!("\"{}\"", "s".repeat(1_000)); 16].join("+");
    let long = ad(&format!("[a={strings};b={}1]", "1+".repeat(150)));
    assert_eq!(long.print(), Err(Refusal::PrintTooLong));
    assert_eq!(long.to_string(), "(printed text over 16,384 bytes)");
    assert_eq!(format!("{long:?}"), "Ad(2 definitions, 332 nodes)");
    assert_eq!(format!("{:?}", ad("[a=1]")), "Ad([a = 1])");
    let sum = long.definition("a").unwrap();
    assert_eq!(sum.expression().unwrap().len(), 16 * 1_002 + 15 * 3);
    let longer = ad(&format!("[a={strings}+{}1]", "1+".repeat(150)));
    let whole = longer.definition("a").unwrap();
    assert_eq!(whole.expression(), Err(Refusal::PrintTooLong));
}
