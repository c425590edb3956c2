//! The lines of a trace, worked out here by docs/COMMANDS.md from the second program's match.

use super::case::Case;
use super::programs::Output;
use crate::printing::expression_text;
use reference::bounds::TEXT_BYTES;
use reference::graph::NodeId;
use reference::matching::{match_ads, Match};
use reference::read::read;
use reference::report;
use reference::show;
use reference::tree::Ad;

pub fn expected(case: &Case) -> Output {
    let [first, second] = [0, 1].map(|side| {
        let text = &case.texts[side];
        read(text).map_err(|refusal| report::refused(case.names[side], text, &refusal))
    });
    let (text, status) = match (first, second) {
        (Ok(first), Ok(second)) => traced(&[first, second], case.budget_number()),
        (first, second) => {
            let lines = first.err().unwrap_or_default() + &second.err().unwrap_or_default();
            (lines.into_bytes(), 1)
        }
    };
    Output {
        text,
        status: Some(status),
        ..Output::default()
    }
}

/// The lines and the exit status.
fn traced(ads: &[Ad; 2], budget: u16) -> (Vec<u8>, i32) {
    let result = match_ads(&ads[0], &ads[1], budget).expect("ads that were read");
    let mut lines = Vec::new();
    for (number, &id) in result.order.iter().enumerate() {
        lines.extend(format!("{} ", number + 1).as_bytes());
        lines.extend(line(&ads[id.side], id, &result));
    }
    lines.extend(report::matched(&result).as_bytes());
    let matched = result.verdict.is_some_and(|verdict| verdict.matched);
    (lines, i32::from(!matched))
}

/// `SIDE NAME: EXPRESSION -> VALUE`
fn line(ad: &Ad, id: NodeId, result: &Match) -> Vec<u8> {
    let numbered = ad.numbered();
    let belongs = |root: &usize| *root >= id.node;
    let definition = numbered.roots.iter().position(belongs).expect("a root");
    let side: &[u8] = [&b"first "[..], b"second "][id.side];
    let name = &ad.definitions[definition].name;
    let mut expression = expression_text(numbered.nodes[id.node].expression);
    if expression.len() > TEXT_BYTES {
        expression = b"(printed text over 16,384 bytes)".to_vec();
    }
    let value = match result.table.get(id) {
        Some(value) => show::value(value),
        None => "blank".to_string(),
    };
    [
        side,
        name,
        b": ",
        &expression,
        b" -> ",
        value.as_bytes(),
        b"\n",
    ]
    .concat()
}
