//! What an accepted text reads as.

use crate::ad;
use reference::tree::{BinaryOperator, Expression, Literal, Scope};

/// A tree in letters, every operator in parentheses before its operands.
fn shape(expression: &Expression) -> String {
    let parts: Vec<String> = expression.operands().into_iter().map(shape).collect();
    let parts = parts.join(" ");
    match expression {
        Expression::Literal(Literal::Undefined) => "U".to_string(),
        Expression::Literal(Literal::Error) => "E".to_string(),
        Expression::Literal(Literal::Boolean(true)) => "T".to_string(),
        Expression::Literal(Literal::Boolean(false)) => "F".to_string(),
        Expression::Literal(Literal::Integer(value)) => value.to_string(),
        Expression::Literal(Literal::Real { digits, places }) => format!("{digits}/{places}"),
        Expression::Literal(Literal::String(content)) => {
            format!("{:?}", String::from_utf8_lossy(content))
        }
        Expression::Reference(Scope::Own, name) => String::from_utf8_lossy(name).into_owned(),
        Expression::Reference(Scope::Other, name) => {
            format!("@{}", String::from_utf8_lossy(name))
        }
        Expression::Unary(operator, _) => format!("(u{} {parts})", operator.spelling()),
        Expression::Binary(operator, ..) => format!("({} {parts})", operator.spelling()),
        Expression::Conditional(..) => format!("(? {parts})"),
    }
}

fn read_shape(expression: &str) -> String {
    let ad = ad(&format!("[a={expression}]"));
    shape(&ad.definitions[0].expression)
}

fn all_read(cases: &[(&str, &str)]) {
    for (text, expected) in cases {
        assert_eq!(read_shape(text), *expected, "{text}");
    }
}

#[test]
fn literals() {
    all_read(&[
        ("undefined", "U"),
        ("UNDEFINED", "U"),
        ("Error", "E"),
        ("tRuE", "T"),
        ("False", "F"),
        ("0", "0"),
        ("007", "7"),
        ("010", "10"),
        ("2147483647", "2147483647"),
        ("0.0", "0/1"),
        ("1.50", "150/2"),
        ("007.50", "750/2"),
        ("0.00000000000001", "1/14"),
        ("99999999999999.9", "999999999999999/1"),
        ("\"\"", "\"\""),
        ("\"aB ~\"", "\"aB ~\""),
        ("\"\\\"\\\\\\n\\t\"", "\"\\\"\\\\\\n\\t\""),
        ("\"true\"", "\"true\""),
    ]);
}

#[test]
fn references() {
    all_read(&[
        ("b", "b"),
        ("_", "_"),
        ("A_1", "A_1"),
        ("truely", "truely"),
        ("isnty", "isnty"),
        ("other1", "other1"),
        ("other.b", "@b"),
        ("OTHER . Bc", "@Bc"),
        ("other\n.\tb", "@b"),
        ("other.a+other.b", "(+ @a @b)"),
    ]);
}

#[test]
fn longest_token_wins() {
    all_read(&[
        ("b<=c", "(<= b c)"),
        ("b< -c", "(< b (u- c))"),
        ("b=?=c", "(is b c)"),
        ("b=!=c", "(isnt b c)"),
        ("b is c", "(is b c)"),
        ("b IsNt c", "(isnt b c)"),
        ("b==!c", "(== b (u! c))"),
        ("b=?=!c", "(is b (u! c))"),
        ("b!=-c", "(!= b (u- c))"),
        ("b- -c", "(- b (u- c))"),
        ("b--c", "(- b (u- c))"),
        ("b+++c", "(+ b (u+ (u+ c)))"),
        ("!!b", "(u! (u! b))"),
        ("1is 2", "(is 1 2)"),
        ("1.5is\"x\"isnt 2", "(isnt (is 15/1 \"x\") 2)"),
    ]);
    // `=!` before anything but `=` is `=`, then `!`.
    assert_eq!(read_shape("!b"), "(u! b)");
}

#[test]
fn binding_and_grouping() {
    all_read(&[
        ("1+2*3", "(+ 1 (* 2 3))"),
        ("1*2+3", "(+ (* 1 2) 3)"),
        ("1-2-3", "(- (- 1 2) 3)"),
        ("1-(2-3)", "(- 1 (- 2 3))"),
        ("8/4*2%3", "(% (* (/ 8 4) 2) 3)"),
        ("-1*2", "(* (u- 1) 2)"),
        ("-(1*2)", "(u- (* 1 2))"),
        ("!b&&c||d", "(|| (&& (u! b) c) d)"),
        ("b||c&&d", "(|| b (&& c d))"),
        ("b<c==d<e", "(== (< b c) (< d e))"),
        ("b==c&&d!=e", "(&& (== b c) (!= d e))"),
        ("b is c is d", "(is (is b c) d)"),
        ("b==c is d!=e isnt f", "(isnt (!= (is (== b c) d) e) f)"),
        ("b<c<=d>e>=f", "(>= (> (<= (< b c) d) e) f)"),
        ("b?c:d", "(? b c d)"),
        ("b?c:d?e:f", "(? b c (? d e f))"),
        ("b?c?d:e:f", "(? b (? c d e) f)"),
        ("(b?c:d)?e:f", "(? (? b c d) e f)"),
        ("b||c?d||e:f||g", "(? (|| b c) (|| d e) (|| f g))"),
        ("-b?c:d", "(? (u- b) c d)"),
        ("((((1))))", "1"),
        ("1+(b?c:d)", "(+ 1 (? b c d))"),
    ]);
}

/// The order of binding once more, written out here.
fn tightness(operator: &str) -> usize {
    let rows = ["||", "&&", "== != is isnt", "< <= > >=", "+ -", "* / %"];
    let holds = |row: &&str| row.split(' ').any(|known| known == operator);
    rows.iter().position(holds).unwrap()
}

#[test]
fn every_two_operators() {
    for one in BinaryOperator::ALL {
        for two in BinaryOperator::ALL {
            let (one, two) = (one.spelling(), two.spelling());
            let expected = if tightness(one) >= tightness(two) {
                format!("({two} ({one} b c) d)")
            } else {
                format!("({one} b ({two} c d))")
            };
            assert_eq!(read_shape(&format!("b {one} c {two} d")), expected);
        }
        let one = one.spelling();
        assert_eq!(
            read_shape(&format!("-b {one} !c")),
            format!("({one} (u- b) (u! c))")
        );
        let expected = format!("(? ({one} b c) ({one} d e) ({one} f g))");
        assert_eq!(
            read_shape(&format!("b {one} c ? d {one} e : f {one} g")),
            expected
        );
    }
}

#[test]
fn definitions() {
    let names = |text: &str| {
        let ad = ad(text);
        let names = ad
            .definitions
            .iter()
            .map(|d| String::from_utf8_lossy(&d.name).into_owned());
        names.collect::<Vec<String>>()
    };
    assert_eq!(names("[]"), Vec::<String>::new());
    assert_eq!(names(" \t\r\n[ \t\r\n] \t\r\n"), Vec::<String>::new());
    assert_eq!(names("[bB=1]"), ["bB"]);
    assert_eq!(names("[b=1;]"), ["b"]);
    assert_eq!(names("[b=1;A_2=2;_c=3;]"), ["b", "A_2", "_c"]);
}

#[test]
fn names_and_strings_stand_in_text_order() {
    let ad = ad("[b=x+other.y*\"s\"?z:\"\";C=-b]");
    let found: Vec<String> = ad
        .names_and_strings()
        .iter()
        .map(|part| String::from_utf8_lossy(part).into_owned())
        .collect();
    assert_eq!(found, ["b", "x", "y", "s", "z", "", "C", "b"]);
}

#[test]
fn nodes_are_numbered_operands_first() {
    let ad = ad("[b=x+2*3;c=-b?1:2]");
    let numbered = ad.numbered();
    let shapes: Vec<String> = numbered
        .nodes
        .iter()
        .map(|node| shape(node.expression))
        .collect();
    let expected = [
        "x",
        "2",
        "3",
        "(* 2 3)",
        "(+ x (* 2 3))",
        "b",
        "(u- b)",
        "1",
        "2",
        "(? (u- b) 1 2)",
    ];
    assert_eq!(shapes, expected);
    assert_eq!(numbered.roots, [4, 9]);
    assert_eq!(numbered.nodes[4].operands, [0, 3]);
    assert_eq!(numbered.nodes[9].operands, [6, 7, 8]);
}
