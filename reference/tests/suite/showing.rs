//! Values as the commands show them, and the lines of an unmatched pair.

use crate::ad;
use reference::matching::match_ads;
use reference::report;
use reference::rng::Rng;
use reference::show::real;

#[test]
fn reals_of_every_form() {
    let examples = [
        (6.5, "6.5"),
        (100_000.0, "100000.0"),
        (0.00001, "0.00001"),
        (0.000012, "0.000012"),
        (0.012, "0.012"),
        (0.0, "0.0"),
        (1.0, "1.0"),
        (10.0, "10.0"),
        (12.0, "12.0"),
        (123.456, "123.456"),
        (1e15, "1000000000000000.0"),
        (1.5e15, "1500000000000000.0"),
        (9_999_999_999_999_998.0, "9999999999999998.0"),
        (1e16, "1.0e16"),
        (2.5e-7, "2.5e-7"),
        (0.000009, "9.0e-6"),
        (9.9999999999999e-6, "9.9999999999999e-6"),
        (-6.5, "-6.5"),
        (-0.0, "-0.0"),
        (-1e16, "-1.0e16"),
        (-0.00001, "-0.00001"),
        (f64::INFINITY, "infinity"),
        (f64::NEG_INFINITY, "-infinity"),
        (f64::NAN, "not-a-number"),
        (-f64::NAN, "not-a-number"),
    ];
    for (value, shown) in examples {
        assert_eq!(real(value), shown);
    }
}

/// Where the digits are hard to find.
#[test]
fn fewest_digits_that_read_back() {
    let examples = [
        // Two numbers of so few digits are equally close.
        (1113178120592002.0 + 0.25, "1113178120592002.3"),
        // The closest number of 16 digits reads back as another float.
        (2_f64.powi(-44), "5.684341886080802e-14"),
        (f64::from_bits(1), "5.0e-324"),
        (f64::MIN_POSITIVE, "2.2250738585072014e-308"),
        (f64::MAX, "1.7976931348623157e308"),
        (1e22, "1.0e22"),
        (1e23, "1.0e23"),
        (2_f64.powi(53), "9007199254740992.0"),
        (2_f64.powi(54), "1.8014398509481984e16"),
        (2_f64.powi(70), "1.1805916207174113e21"),
        (0.1 + 0.2, "0.30000000000000004"),
        (1.0 / 3.0, "0.3333333333333333"),
    ];
    for (value, shown) in examples {
        assert_eq!(real(value), shown);
    }
}

#[test]
fn any_bits_read_back() {
    let mut rng = Rng::new(7);
    for _ in 0..100_000 {
        let value = f64::from_bits(rng.bits());
        if value.is_finite() {
            let shown = real(value);
            let back: f64 = shown.parse().unwrap();
            assert_eq!(back.to_bits(), value.to_bits(), "{shown}");
        }
    }
}

fn lines(first: &str, second: &str) -> String {
    let (first, second) = (ad(first), ad(second));
    report::matched(&match_ads(&first, &second, 65_535).unwrap())
}

/// The line of each value of Requirements, on either side.
#[test]
fn untrue_requirements_of_every_kind() {
    let examples = [
        ("undefined", "undefined"),
        ("gone", "undefined"),
        ("requirements", "undefined"),
        ("error", "error"),
        ("1 / 0", "error"),
        ("false", "false"),
        ("0", "0"),
        ("1", "1"),
        ("-3", "-3"),
        ("2147483647 + 1", "-2147483648"),
        ("6.5", "6.5"),
        ("-0.0", "-0.0"),
        ("10000000.0 * 1000000000.0", "1.0e16"),
        ("0.00000025", "2.5e-7"),
        ("1.0 / 0.0", "infinity"),
        ("-1.0 / 0.0", "-infinity"),
        ("0.0 / 0.0", "not-a-number"),
        ("\"\"", "\"\""),
        ("\"true\"", "\"true\""),
        (r#""a \"b\"\\\n\t~""#, r#""a \"b\"\\\n\t~""#),
    ];
    for (text, shown) in examples {
        let untrue = format!("[Requirements = {text}]");
        let ranks = "first rank 0\nsecond rank 0\n";
        let answer = lines(&untrue, "[Requirements = true]");
        let start = format!("unmatched\nfirst Requirements is {shown}\n{ranks}steps ");
        assert!(answer.starts_with(&start), "{answer}");
        let answer = lines("[Requirements = true]", &untrue);
        let start = format!("unmatched\nsecond Requirements is {shown}\n{ranks}steps ");
        assert!(answer.starts_with(&start), "{answer}");
        let answer = lines(&untrue, &untrue);
        let both = format!("first Requirements is {shown}\nsecond Requirements is {shown}\n");
        let start = format!("unmatched\n{both}{ranks}steps ");
        assert!(answer.starts_with(&start), "{answer}");
    }
}

#[test]
fn ads_without_requirements() {
    let none = "unmatched\nfirst ad has no Requirements\nsecond ad has no Requirements\n\
                first rank 0\nsecond rank 0\nsteps 0 of 0\n";
    assert_eq!(lines("[]", "[a = 1]"), none);
    let first = "unmatched\nfirst ad has no Requirements\n\
                 first rank 0\nsecond rank 2\nsteps 2 of 2\n";
    assert_eq!(lines("[]", "[REQUIREMENTS = true; Rank = 2]"), first);
    let second = "unmatched\nsecond ad has no Requirements\n\
                  first rank 0\nsecond rank 0\nsteps 1 of 1\n";
    assert_eq!(lines("[requirements = true]", "[]"), second);
}

/// The word stands as docs/COMMANDS.md has it, however the ad writes the name; a String may
/// come from the other ad.
#[test]
fn names_and_strings_of_either_ad() {
    let answer = lines(
        "[requirements = other.S]",
        "[s = \"\\\"\"; requireMENTS = 1]",
    );
    let expected = "unmatched\nfirst Requirements is \"\\\"\"\nsecond Requirements is 1\n\
                    first rank 0\nsecond rank 0\nsteps 3 of 3\n";
    assert_eq!(answer, expected);
}

/// Only what is finished says why.
#[test]
fn matched_and_not_done_have_no_such_lines() {
    let both = "[Requirements = true]";
    let expected = "matched\nfirst rank 0\nsecond rank 0\nsteps 2 of 2\n";
    assert_eq!(lines(both, both), expected);
    let untrue = ad("[Requirements = false]");
    let short = report::matched(&match_ads(&untrue, &untrue, 1).unwrap());
    assert_eq!(short, "not done\nsteps 1 of 2\n");
}
