//! The references between the definitions of two ads, as a text for Graphviz.
//! docs/COMMANDS.md gives its lines.

use crate::graph::{NodeId, Pair};
use crate::report::SIDES;
use crate::tree::{Ad, Expression, Scope};

pub fn graphviz(first: &Ad, second: &Ad) -> String {
    let ads = [first, second];
    let pair = Pair::new(first, second);
    let mut lines = "digraph classad {\n  rankdir=LR;\n  node [shape=box];\n".to_string();
    for side in [0, 1] {
        lines += &frame(side, ads[side]);
    }
    for side in [0, 1] {
        lines += &arrows(&pair, ads, side);
    }
    lines + "}\n"
}

/// "a box for each definition, those of an ad in one frame", "in the order of their ad".
fn frame(side: usize, ad: &Ad) -> String {
    let side_name = SIDES[side];
    let mut lines = format!("  subgraph cluster_{side_name} {{\n    label=\"{side_name}\";\n");
    for definition in &ad.definitions {
        let (id, label) = (id(side, &definition.name), letters(&definition.name));
        lines += &format!("    {id} [label=\"{label}\"];\n");
    }
    lines + "  }\n"
}

/// The arrows of an ad's references, "in the order of their nodes, ... needed by the match
/// or not". A definition's nodes end with its root.
fn arrows(pair: &Pair, ads: [&Ad; 2], side: usize) -> String {
    let numbered = ads[side].numbered();
    let mut lines = String::new();
    let mut node = 0;
    for (definition, &root) in ads[side].definitions.iter().zip(&numbered.roots) {
        let from = id(side, &definition.name);
        while node <= root {
            if let Expression::Reference(scope, name) = numbered.nodes[node].expression {
                let to = match scope {
                    Scope::Own => side,
                    Scope::Other => 1 - side,
                };
                let circular = pair.is_circular(NodeId { side, node });
                lines += &arrow(&from, to, ads[to], name, circular);
            }
            node += 1;
        }
    }
    lines
}

/// The arrow of one reference, by its name, to the side `to`. "A reference that finds none
/// has its box's line before its arrow's, each time."
fn arrow(from: &str, to: usize, ad: &Ad, name: &[u8], circular: bool) -> String {
    let target = id(to, name);
    if ad.find(name).is_none() {
        let (side_name, label) = (SIDES[to], letters(name));
        return format!(
            "  subgraph cluster_{side_name} {{ {target} [label=\"{label}\", style=dashed]; }}\n  \
             {from} -> {target} [label=\"absent\", style=dashed];\n"
        );
    }
    let note = if circular {
        " [label=\"circular\", color=red]"
    } else {
        ""
    };
    format!("  {from} -> {target}{note};\n")
}

/// "the side, a point and the name in lower case", in quotes: the same for every spelling.
fn id(side: usize, name: &[u8]) -> String {
    let name = letters(name).to_ascii_lowercase();
    format!("\"{}.{name}\"", SIDES[side])
}

/// A name is letters, digits and `_`, so nothing in it needs an escape.
fn letters(name: &[u8]) -> String {
    name.iter().copied().map(char::from).collect()
}
