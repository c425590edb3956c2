//! Well-formedness: a tree is well formed exactly if some text reads as it.

use reference::check::{check, deepest_level};
use reference::generate::ads::{self, small_ad};
use reference::generate::edges::edge_trees;
use reference::print::printed_text;
use reference::read::{read, read_any_length};
use reference::refusal::{Reason, Refusal};
use reference::rng::Rng;
use reference::tree::{Ad, Expression, Literal, UnaryOperator};

/// By the definition: the printed text, were its length not bounded, reads as the tree,
/// and names and strings have room.
fn readable(ad: &Ad) -> bool {
    let stored: usize = ad.names_and_strings().iter().map(|part| part.len()).sum();
    stored <= 16_384 && read_any_length(&printed_text(ad)).as_ref() == Ok(ad)
}

#[test]
fn edges() {
    for edge in edge_trees() {
        assert_eq!(check(&edge.ad).is_ok(), edge.well_formed, "{}", edge.label);
        assert_eq!(readable(&edge.ad), edge.well_formed, "{}", edge.label);
    }
    assert_eq!(check(&Ad::default()), Ok(()));
}

#[test]
fn refusal_is_10_at_0() {
    let bad = edge_trees()
        .into_iter()
        .find(|edge| !edge.well_formed)
        .unwrap();
    assert_eq!(check(&bad.ad), Err(Refusal::whole(Reason::NotWellFormed)));
    assert_eq!(check(&bad.ad).unwrap_err().place, 0);
}

#[test]
fn every_byte_in_strings_and_names() {
    for byte in 0..=255_u8 {
        let mut ad = crate::ad("[ab = \"xy\"]");
        ad.definitions[0].expression = ads::string(&[b'x', byte]);
        assert_eq!(check(&ad).is_ok(), readable(&ad), "string with {byte}");
        ad.definitions[0].name = vec![b'a', byte];
        ad.definitions[0].expression = ads::integer(1);
        assert_eq!(check(&ad).is_ok(), readable(&ad), "name with {byte}");
        ad.definitions[0].name = vec![byte];
        assert_eq!(check(&ad).is_ok(), readable(&ad), "name from {byte}");
    }
}

/// Small trees, each with one random change that may break it.
#[test]
fn changed_trees() {
    let mut rng = Rng::new(5);
    let mut broken = 0;
    for _ in 0..3_000 {
        let mut ad = small_ad(&mut rng);
        change(&mut rng, &mut ad);
        assert_eq!(check(&ad).is_ok(), readable(&ad), "{ad:?}");
        broken += usize::from(check(&ad).is_err());
    }
    assert!(broken > 300);
}

fn change(rng: &mut Rng, ad: &mut Ad) {
    if ad.definitions.is_empty() {
        return;
    }
    let chosen = rng.below(ad.definitions.len());
    match rng.below(4) {
        0 => ad.definitions[chosen].name = odd_name(rng),
        1 => ad.definitions[chosen].expression = odd_leaf(rng),
        2 => {
            let twin = ad.definitions[chosen].clone();
            ad.definitions.push(twin);
        }
        _ => {
            for _ in 0..rng.between(55, 66) {
                let definition = &mut ad.definitions[chosen];
                let inside = definition.expression.clone();
                definition.expression = ads::unary(UnaryOperator::Minus, inside);
            }
        }
    }
}

fn odd_name(rng: &mut Rng) -> Vec<u8> {
    let pool: [&[u8]; 8] = [b"", b"9", b"z9", b"Is", b"isn", b"a.b", b"other", b"zz "];
    rng.pick(&pool).to_vec()
}

fn odd_leaf(rng: &mut Rng) -> Expression {
    match rng.below(3) {
        0 => Expression::Literal(Literal::Integer(rng.bits() as u32)),
        1 => {
            let digits = rng.bits() % 2_000_000_000_000_000;
            let places = rng.below(17) as u32;
            Expression::Literal(Literal::Real { digits, places })
        }
        _ => ads::own(&String::from_utf8(odd_name(rng)).unwrap()),
    }
}

#[test]
fn what_is_read_is_well_formed() {
    let mut rng = Rng::new(6);
    for edge in reference::generate::edges::edge_texts(&mut rng) {
        if let Ok(ad) = read(&edge.text) {
            assert_eq!(check(&ad), Ok(()), "{}", edge.label);
        }
    }
}

#[test]
fn levels_of_the_printed_text() {
    let level = |text: &str| {
        let ad = crate::ad(&format!("[a={text}]"));
        deepest_level(&ad.definitions[0].expression, 0)
    };
    let cases = [
        ("1", 0),
        ("((1))", 0),
        ("1+2*3", 0),
        ("1+(2+3)", 1),
        ("-1", 1),
        ("--1", 2),
        ("-(1+2)", 2),
        ("b?c:d", 1),
        ("b?c:d?e:f", 2),
        ("b?c?d:e:f", 2),
        ("(b?c:d)?e:f", 2),
        ("-b?c:d", 1),
        ("1+(b?-c:d)", 3),
    ];
    for (text, expected) in cases {
        assert_eq!(level(text), expected, "{text}");
    }
}
