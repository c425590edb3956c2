//! The text for Graphviz, line by line.

use crate::ad;
use crate::graphs::some_pairs;
use reference::graph::Pair;
use reference::graphviz::graphviz;
use reference::tree::Expression;

/// The example of docs/COMMANDS.md.
pub const EXAMPLE: [&str; 2] = [
    "[Requirements = other.w > 50 && v; v = v]",
    "[W = 60; Requirements = other.X is undefined]",
];

pub const EXAMPLE_GRAPH: &str = r#"digraph classad {
  rankdir=LR;
  node [shape=box];
  subgraph cluster_first {
    label="first";
    "first.requirements" [label="Requirements"];
    "first.v" [label="v"];
  }
  subgraph cluster_second {
    label="second";
    "second.w" [label="W"];
    "second.requirements" [label="Requirements"];
  }
  "first.requirements" -> "second.w";
  "first.requirements" -> "first.v";
  "first.v" -> "first.v" [label="circular", color=red];
  subgraph cluster_first { "first.x" [label="X", style=dashed]; }
  "second.requirements" -> "first.x" [label="absent", style=dashed];
}
"#;

fn graph(first: &str, second: &str) -> String {
    graphviz(&ad(first), &ad(second))
}

/// The lines behind both frames, without the last brace.
fn arrows(first: &str, second: &str) -> Vec<String> {
    let text = graph(first, second);
    let frames = text.match_indices("\n  }\n").nth(1).unwrap().0;
    let behind = text[frames + 5..].strip_suffix("}\n").unwrap();
    behind.lines().map(str::to_string).collect()
}

#[test]
fn the_example() {
    assert_eq!(graph(EXAMPLE[0], EXAMPLE[1]), EXAMPLE_GRAPH);
}

#[test]
fn ads_without_definitions() {
    let expected = "digraph classad {\n  rankdir=LR;\n  node [shape=box];\n  \
                    subgraph cluster_first {\n    label=\"first\";\n  }\n  \
                    subgraph cluster_second {\n    label=\"second\";\n  }\n}\n";
    assert_eq!(graph("[]", "[]"), expected);
}

#[test]
fn names_that_differ_in_case() {
    // A label has the definition's own spelling, an arrow has none of either.
    let text = graph("[aB = 1; _X9 = AB + OTHER.Cd]", "[cD = other._x9]");
    assert!(
        text.contains("\n    \"first.ab\" [label=\"aB\"];\n    \"first._x9\" [label=\"_X9\"];\n")
    );
    assert!(text.contains("\n    \"second.cd\" [label=\"cD\"];\n"));
    let expected = [
        "  \"first._x9\" -> \"first.ab\";",
        "  \"first._x9\" -> \"second.cd\" [label=\"circular\", color=red];",
        "  \"second.cd\" -> \"first._x9\" [label=\"circular\", color=red];",
    ];
    assert_eq!(
        arrows("[aB = 1; _X9 = AB + OTHER.Cd]", "[cD = other._x9]"),
        expected
    );
}

#[test]
fn absent_references() {
    // Each has its box again, as written there, in the frame of the ad that lacks it.
    let first = "[a = Gone + gone; b = other.A ? other.gONE : a]";
    let expected = [
        "  subgraph cluster_first { \"first.gone\" [label=\"Gone\", style=dashed]; }",
        "  \"first.a\" -> \"first.gone\" [label=\"absent\", style=dashed];",
        "  subgraph cluster_first { \"first.gone\" [label=\"gone\", style=dashed]; }",
        "  \"first.a\" -> \"first.gone\" [label=\"absent\", style=dashed];",
        "  subgraph cluster_second { \"second.a\" [label=\"A\", style=dashed]; }",
        "  \"first.b\" -> \"second.a\" [label=\"absent\", style=dashed];",
        "  subgraph cluster_second { \"second.gone\" [label=\"gONE\", style=dashed]; }",
        "  \"first.b\" -> \"second.gone\" [label=\"absent\", style=dashed];",
        "  \"first.b\" -> \"first.a\";",
        "  subgraph cluster_second { \"second.b\" [label=\"B\", style=dashed]; }",
        "  \"second.c\" -> \"second.b\" [label=\"absent\", style=dashed];",
        "  \"second.c\" -> \"first.b\";",
    ];
    assert_eq!(arrows(first, "[c = B || other.B]"), expected);
}

#[test]
fn circular_references() {
    // A loop over both ads, one reference beside it, and one that leads into it.
    let expected = [
        "  \"first.a\" -> \"second.b\" [label=\"circular\", color=red];",
        "  \"first.a\" -> \"first.c\";",
        "  \"first.d\" -> \"first.a\";",
        "  \"second.b\" -> \"first.a\" [label=\"circular\", color=red];",
    ];
    let first = "[a = other.b + c; c = 1; d = a]";
    assert_eq!(arrows(first, "[b = other.a]"), expected);
    // An arm that is not taken counts, and so does each of two.
    let expected = ["  \"first.a\" -> \"first.a\" [label=\"circular\", color=red];"; 2];
    assert_eq!(arrows("[a = true ? 1 : a + A]", "[]"), expected);
    // The same name on the other side is another definition.
    let expected = [
        "  \"first.a\" -> \"second.a\";",
        "  \"second.a\" -> \"second.a\" [label=\"circular\", color=red];",
    ];
    assert_eq!(arrows("[a = other.a]", "[a = a]"), expected);
}

/// One arrow for each reference of generated pairs, and as many red ones as are circular.
#[test]
fn as_many_arrows_as_references() {
    for (first, second) in some_pairs(5, 60) {
        let text = graphviz(&first, &second);
        let pair = Pair::new(&first, &second);
        let is_reference = |node: &Expression| matches!(node, Expression::Reference(..));
        let mut references = 0;
        for ad in [&first, &second] {
            ad.walk(&mut |node| references += usize::from(is_reference(node)));
        }
        assert_eq!(text.matches(" -> ").count(), references);
        let circular = pair.circular_references().len();
        assert_eq!(text.matches("color=red").count(), circular);
        // A definition may have that name too; the line's end tells them apart.
        let arrow_end = "[label=\"absent\", style=dashed];\n";
        let absent = text.matches(arrow_end).count();
        assert_eq!(text.matches("  subgraph cluster_").count(), absent + 2);
    }
}
