//! The form of the printed text.

use crate::ad;
use reference::print::print;

fn printed(text: &str) -> String {
    String::from_utf8(print(&ad(text)).unwrap()).unwrap()
}

#[test]
fn forms() {
    let cases = [
        ("[]", "[]"),
        (" [ ] ", "[]"),
        ("[b=1;c=2;]", "[b = 1; c = 2]"),
        ("[aB=OTHER . cD]", "[aB = other.cD]"),
        (
            "[a=TRUE&&False||UNDEFINED!=ERROR]",
            "[a = true && false || undefined != error]",
        ),
        ("[a=b=?=c=!=d]", "[a = b is c isnt d]"),
        ("[a=b IS c ISNT d]", "[a = b is c isnt d]"),
        ("[a=- + ! b]", "[a = -+!b]"),
        ("[a=b?c:d]", "[a = b ? c : d]"),
        ("[a=0007]", "[a = 7]"),
        ("[a=000]", "[a = 0]"),
        ("[a=007.50]", "[a = 7.50]"),
        ("[a=000.0050]", "[a = 0.0050]"),
        ("[a=0.0]", "[a = 0.0]"),
        ("[a=0.00000000000001]", "[a = 0.00000000000001]"),
        ("[a=99999999999999.9]", "[a = 99999999999999.9]"),
        ("[a=\"\\\"\\\\\\n\\t ~\"]", "[a = \"\\\"\\\\\\n\\t ~\"]"),
    ];
    for (text, expected) in cases {
        assert_eq!(printed(text), expected, "{text}");
    }
}

#[test]
fn parentheses_only_where_needed() {
    let cases = [
        ("((1))", "1"),
        ("(1+2)+3", "1 + 2 + 3"),
        ("1+(2+3)", "1 + (2 + 3)"),
        ("1-(2+3)", "1 - (2 + 3)"),
        ("(1*2)+(3*4)", "1 * 2 + 3 * 4"),
        ("(1+2)*(3+4)", "(1 + 2) * (3 + 4)"),
        ("1*(2*3)", "1 * (2 * 3)"),
        ("-(1+2)", "-(1 + 2)"),
        ("(-1)+2", "-1 + 2"),
        ("-(-1)", "--1"),
        ("(-1)*(-2)", "-1 * -2"),
        ("!(b&&c)", "!(b && c)"),
        ("-(b?c:d)", "-(b ? c : d)"),
        ("(b?c:d)?e:f", "(b ? c : d) ? e : f"),
        ("b?(c?d:e):f", "b ? c ? d : e : f"),
        ("b?c:(d?e:f)", "b ? c : d ? e : f"),
        ("(b||c)?(d||e):(f||g)", "b || c ? d || e : f || g"),
        ("1+(b?c:d)", "1 + (b ? c : d)"),
        ("(b?c:d)+1", "(b ? c : d) + 1"),
        ("(b is c)is d", "b is c is d"),
        ("b is(c is d)", "b is (c is d)"),
        ("(b==c)<d", "(b == c) < d"),
        ("(b<c)==d", "b < c == d"),
        ("(b||c)&&d", "(b || c) && d"),
        ("b&&(c||d)", "b && (c || d)"),
        ("b||(c&&d)", "b || c && d"),
        ("b||(c||d)", "b || (c || d)"),
    ];
    for (text, expected) in cases {
        assert_eq!(
            printed(&format!("[a={text}]")),
            format!("[a = {expected}]"),
            "{text}"
        );
    }
}
