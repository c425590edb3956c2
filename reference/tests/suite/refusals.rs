//! Every refusal number, with its place, and the order among them.

use reference::bounds::{self, AdRoom, MatchRoom};
use reference::generate::edge_rooms;
use reference::generate::edges::{ad_of_printed_length, edge_texts, edge_trees};
use reference::matching::match_into;
use reference::print::{print, print_into, printed_text};
use reference::read::{read, read_into};
use reference::refusal::{Reason, Refusal};
use reference::rng::Rng;
use reference::tree::Ad;

/// Number and place, or nothing for an accepted text.
fn refusal(text: &[u8]) -> Option<(usize, usize)> {
    read(text)
        .err()
        .map(|refusal| (refusal.number(), refusal.place))
}

fn all_refused(cases: &[(&str, usize, usize)]) {
    for &(text, number, place) in cases {
        assert_eq!(refusal(text.as_bytes()), Some((number, place)), "{text:?}");
    }
}

#[test]
fn text_ends_early() {
    all_refused(&[
        ("", 4, 0),
        (" \t\r\n", 4, 4),
        ("[", 4, 1),
        ("[a", 4, 2),
        ("[a ", 4, 3),
        ("[a=", 4, 3),
        ("[a=1", 4, 4),
        ("[a=1;", 4, 5),
        ("[a=1 ;  \n", 4, 9),
        ("[a=(1", 4, 5),
        ("[a=1+", 4, 5),
        ("[a=-", 4, 4),
        ("[a=1?", 4, 5),
        ("[a=1?2", 4, 6),
        ("[a=1?2:", 4, 7),
        ("[a=other", 4, 8),
        ("[a=other ", 4, 9),
        ("[a=other.", 4, 9),
        ("[a=1.", 4, 4),
    ]);
}

#[test]
fn token_does_not_fit_around_definitions() {
    all_refused(&[
        ("x", 4, 0),
        ("]", 4, 0),
        ("[;]", 4, 1),
        ("[a=1;;]", 4, 5),
        ("[a=1;;", 4, 5),
        ("[]]", 4, 2),
        ("[] []", 4, 3),
        ("[]1.5", 4, 2),
        ("[1=2]", 4, 1),
        ("[\"a\"=1]", 4, 1),
        ("[a==1]", 4, 2),
        ("[a=?=1]", 4, 2),
        ("[a=!=1]", 4, 2),
        ("[a is 1]", 4, 3),
        ("[a:1]", 4, 2),
        ("[a.b=1]", 4, 2),
        ("[other.b=1]", 4, 1),
        ("[a=1 b=2]", 4, 5),
        ("[a=]", 4, 3),
        ("[a=;b=1]", 4, 3),
        ("[a=1 2]", 4, 5),
        ("[a=1=2]", 4, 4),
    ]);
    for word in [
        "true",
        "FALSE",
        "Undefined",
        "error",
        "is",
        "ISNT",
        "parent",
        "oTHER",
    ] {
        all_refused(&[(&format!("[{word}=1]"), 4, 1)]);
    }
}

#[test]
fn token_does_not_fit_in_expressions() {
    all_refused(&[
        ("[a=()]", 4, 4),
        ("[a=(1]", 4, 5),
        ("[a=1)]", 4, 4),
        ("[a=\"x\"\"y\"]", 4, 6),
        ("[a=1.]", 4, 4),
        ("[a=1.x]", 4, 4),
        ("[a=.5]", 4, 3),
        ("[a=1.5.2]", 4, 6),
        ("[a=1 . 5]", 4, 5),
        ("[a=1. 5]", 4, 4),
        ("[a=12abc]", 4, 5),
        ("[a=1e5]", 4, 4),
        ("[a=1.5e5]", 4, 6),
        ("[a=0x1F]", 4, 4),
        ("[a=b.c]", 4, 4),
        ("[a=other]", 4, 8),
        ("[a=other b]", 4, 9),
        ("[a=other.]", 4, 9),
        ("[a=other.1]", 4, 9),
        ("[a=other.\"b\"]", 4, 9),
        ("[a=other.b.c]", 4, 10),
        ("[a=other.other.b]", 4, 9),
        ("[a=other.true]", 4, 9),
        ("[a=parent]", 4, 3),
        ("[a=parent.b]", 4, 3),
        ("[a=is]", 4, 3),
        ("[a=1 is]", 4, 7),
        ("[a=1 isnt isnt 2]", 4, 10),
        ("[a=1 not 2]", 4, 5),
        ("[a=1<<2]", 4, 5),
        ("[a=1>>>2]", 4, 5),
        ("[a=f(1)]", 4, 4),
        ("[a=b[1]]", 4, 4),
        ("[a=[b=1]]", 4, 3),
        ("[a=1//c\n]", 4, 5),
        ("[a=/*c*/1]", 4, 3),
        ("[a=1 ? 2]", 4, 8),
        ("[a=1 ? : 2]", 4, 7),
        ("[a=1 : 2]", 4, 5),
        ("[a=1?2:3:4]", 4, 8),
        ("[a=?1:2]", 4, 3),
        ("[a=1 =?x 2]", 4, 5),
        ("[a=1 =!2]", 4, 5),
        ("[a=1===2]", 4, 6),
        ("[a=1=?==2]", 4, 7),
        ("[a=1!==2]", 4, 6),
        ("[a=!]", 4, 4),
        ("[a=*1]", 4, 3),
        ("[a=1!2]", 4, 4),
        ("[a=1-*2]", 4, 5),
        ("[a=-1?]", 4, 6),
    ]);
}

#[test]
fn no_token_starts() {
    all_refused(&[
        ("&", 3, 0),
        ("[&", 3, 1),
        ("[]&", 3, 2),
        ("[] \0", 3, 3),
        ("[a=1,b=2]", 3, 4),
        ("[a=1&2]", 3, 4),
        ("[a=1|2]", 3, 4),
        ("[a=1&&&2]", 3, 6),
        ("[a=1^2]", 3, 4),
        ("[a=~1]", 3, 3),
        ("[a={1}]", 3, 3),
        ("[a='x']", 3, 3),
        ("[a=\\]", 3, 3),
        ("[a=@]", 3, 3),
        ("[a=#]", 3, 3),
        ("[a=$]", 3, 3),
        ("[a=`]", 3, 3),
        ("[a=\x0B1]", 3, 3),
    ]);
}

#[test]
fn bad_strings() {
    all_refused(&[
        ("[a=\"", 3, 3),
        ("[a=\"x", 3, 3),
        ("[a=\"x]", 3, 3),
        ("[a=\"x\\\"]", 3, 3),
        ("[a=\"\\", 3, 3),
        ("[a=\"ok\\x\"]", 3, 3),
        ("[a=\"\\r\"]", 3, 3),
        ("[a=\"\\N\"]", 3, 3),
        ("[a=\"\\'\"]", 3, 3),
        ("[a=\"\\0\"]", 3, 3),
        ("[a=\"\t\"]", 3, 3),
        ("[a=\"x\n\"]", 3, 3),
        ("[a=1 \"x\n\"]", 3, 5),
        ("[\"", 3, 1),
        ("[] \"", 3, 3),
    ]);
    for byte in 0..=255_u8 {
        let text = [b"[a=\"x", &[byte][..], b"\"]"].concat();
        // A quote closes the string early; the next string is then not closed.
        let bad = byte == b'"' || byte == b'\\' || !(0x20..=0x7E).contains(&byte);
        let place = if byte == b'"' { 6 } else { 3 };
        assert_eq!(refusal(&text), bad.then_some((3, place)), "byte {byte}");
    }
}

/// One byte behind `[`: a blank, a name, a `]`, a token that does not fit, or none.
#[test]
fn each_single_byte() {
    for byte in 0..=255_u8 {
        let text = [b'[', byte, b' '];
        let expected = match byte {
            b']' => None,
            b' ' | b'\t' | b'\r' | b'\n' | b'_' => Some((4, 3)),
            b'a'..=b'z' | b'A'..=b'Z' => Some((4, 3)),
            b'0'..=b'9' => Some((4, 1)),
            b'!' | b'%' | b'(' | b')' | b'*' | b'+' | b'-' | b'.' | b'/' => Some((4, 1)),
            b':' | b';' | b'<' | b'=' | b'>' | b'?' | b'[' => Some((4, 1)),
            _ => Some((3, 1)),
        };
        assert_eq!(refusal(&text), expected, "byte {byte}");
    }
}

#[test]
fn first_token_that_breaks_a_rule_decides() {
    all_refused(&[
        ("[a=1 2 &]", 4, 5),
        ("[a=1;a=&]", 8, 5),
        ("[a=1;a 99999999999]", 8, 5),
        ("[a=99999999999 &]", 5, 3),
        ("[a=1 99999999999 &]", 5, 5),
        ("[a=1;A", 8, 5),
        ("[a=1;a&", 8, 5),
    ]);
    // At one token 3, 7 and 5 come before the grammar's 4.
    let long = "n".repeat(65);
    all_refused(&[
        ("[a=1 99999999999]", 5, 5),
        ("99999999999", 5, 0),
        ("[a 0.0000000000000001]", 5, 3),
        (&format!("[a {long}=1]"), 7, 3),
        (&format!("[] {long}"), 7, 3),
        (&format!("[a=1 \"{}\"]", "s".repeat(1_025)), 7, 5),
    ]);
}

#[test]
fn edges_of_every_bound() {
    let mut rng = Rng::new(11);
    for _ in 0..5 {
        for edge in edge_texts(&mut rng) {
            let answer = read(&edge.text).err();
            let front: Vec<u8> = edge.text.iter().copied().take(60).collect();
            let front = String::from_utf8_lossy(&front);
            assert_eq!(answer, edge.expected, "{}: {front}", edge.label);
        }
    }
}

#[test]
fn room_too_small_comes_first() {
    let refused = Refusal::whole(Reason::RoomTooSmall);
    let long = vec![b' '; 16_385];
    let bad_tree = ad_of_bad_name();
    for (rooms, match_room) in edge_rooms() {
        let fits =
            |room: AdRoom| room.nodes >= 1_024 && room.definitions >= 256 && room.bytes >= 16_384;
        let answer = read_into(rooms[0], &long).unwrap_err();
        assert_eq!(answer.number(), if fits(rooms[0]) { 2 } else { 1 });
        assert_eq!(answer.place, 0);
        let answer = print_into(rooms[0], &bad_tree, 0).unwrap_err();
        assert_eq!(answer.number(), if fits(rooms[0]) { 10 } else { 1 });
        let all = fits(rooms[0])
            && fits(rooms[1])
            && match_room.values >= 2_048
            && match_room.entries >= 2_048;
        let empty = Ad::default();
        let answer = match_into(rooms, match_room, &empty, &empty, 0).err();
        assert_eq!(answer, (!all).then_some(refused));
        let answer = match_into(rooms, match_room, &empty, &bad_tree, 0).err();
        assert_eq!(answer.unwrap().number(), if all { 10 } else { 1 });
    }
}

fn ad_of_bad_name() -> Ad {
    let mut ad = crate::ad("[a = 1]");
    ad.definitions[0].name = b"1a".to_vec();
    ad
}

#[test]
fn ill_formed_trees_are_not_printed_or_matched() {
    let rooms = [AdRoom::REQUIRED; 2];
    let empty = Ad::default();
    for edge in edge_trees() {
        let expected = (!edge.well_formed).then_some(Refusal::whole(Reason::NotWellFormed));
        if !edge.well_formed {
            assert_eq!(print(&edge.ad).err(), expected, "{}", edge.label);
        }
        let matching = match_into(rooms, MatchRoom::REQUIRED, &edge.ad, &empty, 0);
        assert_eq!(matching.err(), expected, "{}", edge.label);
        let matching = match_into(rooms, MatchRoom::REQUIRED, &empty, &edge.ad, 0);
        assert_eq!(matching.err(), expected, "{}", edge.label);
    }
}

#[test]
fn printed_text_too_long() {
    let refused = Err(Refusal::whole(Reason::PrintTooLong));
    for length in [20, 900, 16_383, 16_384, 16_385, 16_600] {
        let ad = ad_of_printed_length(length);
        let text = printed_text(&ad);
        assert_eq!(text.len(), length);
        let print_with = |output| print_into(AdRoom::REQUIRED, &ad, output);
        if length <= 16_384 {
            assert_eq!(print_with(length), Ok(text.clone()));
            assert_eq!(print_with(length + 1), Ok(text));
            assert_eq!(print_with(length - 1), refused);
            assert_eq!(print_with(0), refused);
        } else {
            assert_eq!(print_with(length), refused);
            assert_eq!(print_with(usize::MAX), refused);
        }
    }
    // An ad can be read and yet have no printed text.
    let text = format!("[a=-1{}]", "+1".repeat(511));
    assert_eq!(
        print_into(AdRoom::REQUIRED, &crate::ad(&text), 16_384)
            .unwrap()
            .len(),
        2_052
    );
    let parts: Vec<String> = (0..256)
        .map(|n| format!("d{n}=\"{}\"", "s".repeat(56)))
        .collect();
    let text = format!("[{}]", parts.join(";"));
    assert!(text.len() <= 16_384);
    assert_eq!(print(&crate::ad(&text)), refused);
}

#[test]
fn numbers_are_those_of_document_01() {
    let numbers: Vec<usize> = Reason::ALL.iter().map(|reason| reason.number()).collect();
    assert_eq!(numbers, (1..=11).collect::<Vec<usize>>());
}

/// The numbers themselves, as the edges above are built from them.
#[test]
fn bounds_are_those_of_document_01() {
    assert_eq!(bounds::TEXT_BYTES, 16_384);
    assert_eq!(bounds::DEFINITIONS, 256);
    assert_eq!(bounds::NODES, 1_024);
    assert_eq!(bounds::NAME_BYTES, 64);
    assert_eq!(bounds::STRING_BYTES, 1_024);
    assert_eq!(bounds::LEVEL, 64);
    assert_eq!(bounds::STORED_BYTES, 16_384);
    assert_eq!(bounds::SLOTS, 2_048);
    assert_eq!(bounds::INTEGER, 2_147_483_647);
    assert_eq!(bounds::REAL_DIGITS, 15);
}
