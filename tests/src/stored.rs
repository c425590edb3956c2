//! Stored ads: of every size, at the bounds, of trees that no text has, and damaged ones.

use crate::damage;
use crate::sample::Sample;
use reference::bounds;
use reference::generate::{ads, edges, matches};
use reference::rng::Rng;
use reference::tree::{Ad, BinaryOperator, Expression, Literal, UnaryOperator};

const WHOLE: [&str; 8] = [
    "small ad",
    "ad made for matching",
    "rich ad",
    "large ad",
    "full ad",
    "ad at a bound",
    "long print",
    "odd tree",
];

/// The ads as such, then the damaged ones.
pub fn families() -> Vec<&'static str> {
    [&WHOLE[..], &damage::KINDS[..]].concat()
}

/// The trees at the bounds, made once for a run.
pub struct Samples {
    edges: Vec<Ad>,
}

impl Samples {
    /// Those for which there is room in memory.
    pub fn new() -> Samples {
        let trees = edges::edge_trees().into_iter().map(|edge| edge.ad);
        Samples {
            edges: trees.filter(has_room).collect(),
        }
    }

    /// A stored ad and its family; damaged in `percent` of a hundred cases.
    pub fn draw(&self, rng: &mut Rng, percent: usize) -> (usize, Sample) {
        if rng.chance(percent) {
            let kind = rng.below(damage::KINDS.len());
            return (WHOLE.len() + kind, self.damaged(rng, kind));
        }
        let family = match rng.below(1_000) {
            0..=229 => 0,
            230..=429 => 1,
            430..=679 => 2,
            680..=689 => 3,
            690..=699 => 4,
            700..=829 => 5,
            830..=859 => 6,
            _ => 7,
        };
        (family, Sample::of(self.whole(rng, family)))
    }

    pub fn damaged(&self, rng: &mut Rng, kind: usize) -> Sample {
        let family = match rng.below(100) {
            0..=59 => 0,
            60..=74 => 1,
            75..=89 => 2,
            90..=91 => 3,
            92..=97 => 5,
            _ => 7,
        };
        let ad = self.whole(rng, family);
        damage::damaged(rng, kind, ad)
    }

    fn whole(&self, rng: &mut Rng, family: usize) -> Ad {
        match family {
            0 => ads::small_ad(rng),
            1 => matches::matching_ad(rng),
            2 => ads::rich_pair(rng).0,
            3 => ads::large_pair(rng).0,
            4 => ads::full_pair(rng).0,
            5 => rng.pick(&self.edges).clone(),
            6 => long_print(rng),
            _ => odd_tree(rng),
        }
    }
}

fn has_room(ad: &Ad) -> bool {
    let stored: usize = ad.names_and_strings().iter().map(|part| part.len()).sum();
    ad.definitions.len() <= bounds::DEFINITIONS
        && ad.node_count() <= bounds::NODES
        && stored <= bounds::STORED_BYTES
}

/// A print about as long as the bound, or much longer by escapes.
fn long_print(rng: &mut Rng) -> Ad {
    if rng.chance(60) {
        return edges::ad_of_printed_length(bounds::TEXT_BYTES - 4 + rng.below(9));
    }
    let mut ad = Ad::default();
    for number in 0..rng.between(7, 15) {
        let length = rng.between(900, bounds::STRING_BYTES);
        let content: Vec<u8> = (0..length).map(|_| escaped_byte(rng)).collect();
        let name = format!("s{number}");
        ad.definitions
            .push(ads::definition(&name, ads::string(&content)));
    }
    ad
}

fn escaped_byte(rng: &mut Rng) -> u8 {
    if rng.chance(60) {
        *rng.pick(b"\"\\\n\t")
    } else {
        ads::possible_byte(rng)
    }
}

// Trees that a text may not have.

fn odd_tree(rng: &mut Rng) -> Ad {
    let mut ad = ads::small_ad(rng);
    let Some(last) = ad.definitions.last_mut() else {
        return ad;
    };
    match rng.below(5) {
        0 => last.name = odd_name(rng),
        1 => last.expression = odd_leaf(rng),
        2 => {
            let mut twin = last.clone();
            twin.name = twin.name.to_ascii_uppercase();
            ad.definitions.push(twin);
        }
        _ => {
            for _ in 0..rng.between(28, 66) {
                let inside = std::mem::replace(&mut last.expression, ads::integer(1));
                last.expression = around(rng, inside);
            }
        }
    }
    ad
}

/// Around an expression what may go a level deeper.
fn around(rng: &mut Rng, inside: Expression) -> Expression {
    match rng.below(6) {
        0 | 1 => ads::unary(*rng.pick(&UnaryOperator::ALL), inside),
        2 => ads::binary(*rng.pick(&BinaryOperator::ALL), ads::integer(1), inside),
        3 => ads::binary(*rng.pick(&BinaryOperator::ALL), inside, ads::integer(1)),
        4 => ads::conditional(ads::own("a"), inside, ads::integer(1)),
        _ => ads::conditional(inside, ads::own("a"), ads::integer(1)),
    }
}

fn odd_name(rng: &mut Rng) -> Vec<u8> {
    let pool: [&[u8]; 12] = [
        b"", b"9", b"z9", b"Is", b"isn", b"a.b", b"other", b"zz ", b"TRUE", b"pARENT", b"_", b"a\0",
    ];
    if rng.chance(30) {
        vec![b'n'; rng.between(63, 66)]
    } else {
        rng.pick(&pool).to_vec()
    }
}

fn odd_leaf(rng: &mut Rng) -> Expression {
    let near = rng.between(0, 2) as u64;
    match rng.below(5) {
        0 => Expression::Literal(Literal::Integer(bounds::INTEGER as u32 - 1 + near as u32)),
        1 => Expression::Literal(Literal::Real {
            digits: rng.bits() % 2_000_000_000_000_000,
            places: rng.below(17) as u32,
        }),
        2 => Expression::Literal(Literal::Real {
            digits: 999_999_999_999_998 + near,
            places: rng.between(13, 15) as u32,
        }),
        3 => Expression::Reference(reference::tree::Scope::Other, odd_name(rng)),
        _ => {
            let mut content = vec![b's'; rng.between(0, 3)];
            content.push(rng.byte());
            ads::string(&content)
        }
    }
}
