//! Round trip and exchange over many generated ads, and the generator itself.

use reference::generate::ads::{
    full_pair, large_pair, rich_pair, ring_pair, shared_pair, small_ad,
};
use reference::generate::coverage::Coverage;
use reference::generate::spelling::spelled;
use reference::generate::{Body, Generator};
use reference::graph::{NodeId, Pair};
use reference::matching::{match_pair, Verdict};
use reference::print::{print, printed_text};
use reference::read::read;
use reference::refusal::{Reason, Refusal};
use reference::rng::Rng;
use reference::tree::Ad;

fn many_ads(seed: u64, count: usize) -> Vec<Ad> {
    let mut rng = Rng::new(seed);
    let mut ads = Vec::new();
    while ads.len() < count {
        match rng.below(40) {
            0 => ads.push(large_pair(&mut rng).0),
            1 => ads.push(shared_pair(&mut rng).0),
            2 => ads.push(ring_pair(&mut rng).0),
            3..=15 => ads.push(rich_pair(&mut rng).0),
            _ => ads.push(small_ad(&mut rng)),
        }
    }
    ads
}

fn assert_reads_as(text: &[u8], ad: &Ad) {
    let answer = read(text);
    assert_eq!(answer.as_ref(), Ok(ad), "{}", String::from_utf8_lossy(text));
}

#[test]
fn printed_text_reads_back() {
    for ad in many_ads(1, 4_000) {
        let text = printed_text(&ad);
        assert_eq!(print(&ad), Ok(text.clone()));
        assert_reads_as(&text, &ad);
    }
}

#[test]
fn every_spelling_reads_the_same() {
    let mut rng = Rng::new(2);
    for ad in many_ads(2, 4_000) {
        let text = spelled(&mut rng, &ad);
        if text.len() <= 16_384 {
            assert_reads_as(&text, &ad);
        }
    }
}

/// "Parentheses only where the tree would otherwise read differently": without any one
/// pair of them the text reads as another tree or not at all.
#[test]
fn no_parentheses_can_go() {
    let mut pairs = 0;
    for ad in many_ads(3, 1_500) {
        let text = printed_text(&ad);
        for (open, close) in parentheses(&text).into_iter().take(12) {
            let mut without = text.clone();
            without.remove(close);
            without.remove(open);
            assert_ne!(
                read(&without).as_ref(),
                Ok(&ad),
                "{}",
                String::from_utf8_lossy(&text)
            );
            pairs += 1;
        }
    }
    assert!(pairs > 1_000);
}

/// The places of matching parentheses outside strings.
fn parentheses(text: &[u8]) -> Vec<(usize, usize)> {
    let (mut open, mut found) = (Vec::new(), Vec::new());
    let (mut quoted, mut place) = (false, 0);
    while place < text.len() {
        match text[place] {
            b'\\' if quoted => place += 1,
            b'"' => quoted = !quoted,
            b'(' if !quoted => open.push(place),
            b')' if !quoted => found.push((open.pop().unwrap(), place)),
            _ => {}
        }
        place += 1;
    }
    found
}

/// Whatever is accepted prints as a text that reads back the same; whatever is refused
/// is fine up to its place: cut there, the text is whole or just ends early.
#[test]
fn any_text() {
    for input in Generator::new(4).take(6_000) {
        let Body::Text(text) = input.body else {
            continue;
        };
        match read(&text) {
            Ok(ad) => {
                let again = printed_text(&ad);
                if again.len() <= 16_384 {
                    assert_eq!(read(&again), Ok(ad));
                }
            }
            Err(refusal) if refusal.number() == 2 => assert!(text.len() > 16_384),
            Err(refusal) => {
                let early = Refusal::at(Reason::DoesNotFit, refusal.place);
                match read(&text[..refusal.place]) {
                    Ok(_) => assert!(matches!(refusal.number(), 3 | 4 | 5 | 7)),
                    Err(front) => assert_eq!(front, early),
                }
            }
        }
    }
}

/// Exchanged ads: the same verdict and steps, the ranks, sides and slots exchanged.
#[test]
fn exchange() {
    let mut rng = Rng::new(7);
    for number in 0..600 {
        let (first, second) = match number % 12 {
            0 => shared_pair(&mut rng),
            1 => ring_pair(&mut rng),
            2 => (small_ad(&mut rng), small_ad(&mut rng)),
            3 => large_pair(&mut rng),
            _ => rich_pair(&mut rng),
        };
        check_exchange(&first, &second);
    }
}

fn check_exchange(first: &Ad, second: &Ad) {
    let pair = Pair::new(first, second);
    let exchanged = Pair::new(second, first);
    let turn = |id: NodeId| NodeId {
        side: 1 - id.side,
        ..id
    };
    let one = match_pair(&pair, 65_535);
    let two = match_pair(&exchanged, 65_535);
    assert_eq!(one.steps, two.steps);
    let verdict = two.verdict.unwrap();
    let turned = Verdict {
        matched: verdict.matched,
        first_rank: verdict.second_rank,
        second_rank: verdict.first_rank,
    };
    assert_eq!(one.verdict, Some(turned));
    for id in pair.nodes() {
        assert_eq!(pair.is_circular(id), exchanged.is_circular(turn(id)));
        let (mine, theirs) = (one.table.get(id), two.table.get(turn(id)));
        assert_eq!(mine.map(crate::shown), theirs.map(crate::shown));
    }
    let mut entries = one.order.clone();
    let mut others: Vec<NodeId> = two.order.iter().map(|&id| turn(id)).collect();
    entries.sort();
    others.sort();
    assert_eq!(entries, others);
}

#[test]
fn generator_leaves_no_gap() {
    for seed in [1, 2] {
        let mut coverage = Coverage::new();
        for input in Generator::new(seed).take(2_400) {
            coverage.take(&input);
        }
        assert_eq!(
            coverage.gaps(),
            Vec::<String>::new(),
            "seed {seed}\n{coverage}"
        );
    }
}

#[test]
fn generator_repeats_with_its_seed() {
    let texts = |seed| {
        let mut all = Vec::new();
        for input in Generator::new(seed).take(600) {
            match input.body {
                Body::Text(text) => all.push(text),
                Body::Pair(first, second) => all.extend([first, second]),
                _ => {}
            }
        }
        all
    };
    assert_eq!(texts(9), texts(9));
    assert_ne!(texts(9), texts(10));
}

#[test]
fn full_pairs_have_a_list_of_2048_entries() {
    let mut rng = Rng::new(12);
    for _ in 0..20 {
        let (first, second) = full_pair(&mut rng);
        let pair = Pair::new(&first, &second);
        assert_eq!(pair.evaluation_order().len(), 2_048);
    }
}

#[test]
fn generated_pairs_are_accepted() {
    for input in Generator::new(8).take(2_000) {
        if let Body::Pair(first, second) = input.body {
            assert!(read(&first).is_ok() && read(&second).is_ok());
        }
    }
}
