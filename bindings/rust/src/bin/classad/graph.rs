//! The references between the definitions of two ads, as a text for Graphviz. docs/COMMANDS.md
//! gives each byte of it.

use classad::{Ad, Dependencies, Reference, Side};

const SIDES: [Side; 2] = [Side::First, Side::Second];

/// A box for each definition, then an arrow for each reference, needed by a match or not.
pub fn graph(ads: [&Ad; 2]) -> String {
    let found = Dependencies::new(ads[0], ads[1]);
    let frames = SIDES.map(|side| frame(side, ads[side as usize])).concat();
    let arrows = SIDES.map(|side| arrows(ads, side, &found)).concat();
    format!("digraph classad {{\n  rankdir=LR;\n  node [shape=box];\n{frames}{arrows}}}\n")
}

/// The frame of an ad, with a box for each definition.
fn frame(side: Side, ad: &Ad) -> String {
    let boxes: String = ad
        .definitions()
        .map(|it| format!("    {} [label=\"{}\"];\n", id(side, it.name), it.name))
        .collect();
    format!("  subgraph cluster_{side} {{\n    label=\"{side}\";\n{boxes}  }}\n")
}

fn arrows(ads: [&Ad; 2], side: Side, found: &Dependencies) -> String {
    let references = ads[side as usize].references();
    references.map(|it| arrow(ads, side, it, found)).collect()
}

/// From the definition that a reference stands in to the one that it leads to. Where there is
/// none, a box for it comes before.
fn arrow(ads: [&Ad; 2], side: Side, reference: Reference, found: &Dependencies) -> String {
    let Reference { node, name, .. } = reference;
    let holder = ads[side as usize].definition_of(node);
    let from = id(side, holder.expect("a node has a definition").name);
    let target = if reference.is_other {
        side.other()
    } else {
        side
    };
    let to = id(target, name);
    if ads[target as usize].definition(name).is_none() {
        let absent = format!("{to} [label=\"{name}\", style=dashed];");
        return format!(
            "  subgraph cluster_{target} {{ {absent} }}\n\
             \x20 {from} -> {to} [label=\"absent\", style=dashed];\n"
        );
    }
    if found.is_circular(side, node) {
        return format!("  {from} -> {to} [label=\"circular\", color=red];\n");
    }
    format!("  {from} -> {to};\n")
}

/// One for all spellings of a name.
fn id(side: Side, name: &str) -> String {
    format!("\"{side}.{}\"", name.to_ascii_lowercase())
}
