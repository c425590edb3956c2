//! Texts that are refused, by the causes that docs/COMMANDS.md tells apart.

use reference::rng::Rng;

/// What refuses a text, each with a maker of such texts.
const CAUSES: [fn(&mut Rng) -> Vec<u8>; 14] = [
    stray_byte,
    |rng| string(rng, BAD_BYTES),
    |rng| string(rng, BAD_ESCAPES),
    |rng| string(rng, OPEN_ENDS),
    misfit,
    early_end,
    large_integer,
    long_real,
    deep,
    long_name,
    long_string,
    defined_twice,
    definitions,
    nodes,
];

const BAD_BYTES: &[&[u8]] = &[b"\n", b"\t", b"\r\n", b"\0", b"\x1F", b"\x7F", b"\xFF"];

/// A bad byte behind a backslash is a bad escape too.
const BAD_ESCAPES: &[&[u8]] = &[b"\\x", b"\\r", b"\\N", b"\\'", b"\\0", b"\\\n", b"\\\x80"];

/// Nothing may follow these: a backslash or a quote is then the text's last byte.
const OPEN_ENDS: &[&[u8]] = &[b"", b"\\", b"\\\"", b"\\\\", b"]", b";b=1]"];

pub fn text(rng: &mut Rng) -> Vec<u8> {
    let cause = rng.pick(&CAUSES);
    cause(rng)
}

/// Blanks, line ends among them.
fn blanks(rng: &mut Rng) -> &'static str {
    let all = ["", "", " ", "\t", "\n", "\r\n", " \n\n  "];
    all[rng.below(all.len())]
}

/// The beginning of an ad, up to where an expression starts.
fn front(rng: &mut Rng) -> String {
    let mut text = format!("{}[{}", blanks(rng), blanks(rng));
    if rng.chance(50) {
        text += &format!("x =\n\"a;\" {};{}", blanks(rng), blanks(rng));
    }
    text + &format!("a{}={}", blanks(rng), blanks(rng))
}

fn one_of(rng: &mut Rng, ends: &[&str]) -> Vec<u8> {
    let text = front(rng) + *rng.pick(ends);
    text.into_bytes()
}

fn stray_byte(rng: &mut Rng) -> Vec<u8> {
    let mut text = front(rng).into_bytes();
    text.push(*rng.pick(b"&|^~{}@#$'`\\,\0\x0B\x7F\xFF"));
    text.extend(blanks(rng).as_bytes());
    text.extend(*rng.pick(&[&b"\"x\"]"[..], b"1]", b""]));
    text
}

/// A string that goes bad with one of these; behind a bad byte or escape there may be
/// further ones, which must not count.
fn string(rng: &mut Rng, bad: &[&[u8]]) -> Vec<u8> {
    let parts: [&[u8]; 8] = [b"s", b" ", b";", b"\\n", b"\\t", b"\\\\", b"\\\"", b"~"];
    let mut text = front(rng).into_bytes();
    text.push(b'"');
    for _ in 0..rng.below(6) {
        text.extend(*rng.pick(&parts));
    }
    text.extend(*rng.pick(bad));
    if bad != OPEN_ENDS {
        let ends: [&[u8]; 6] = [b"\"]", b"", b"\\", b"\n\"]", b"\\x\"]", b"\xFF"];
        text.extend(*rng.pick(&ends));
    }
    text
}

fn misfit(rng: &mut Rng) -> Vec<u8> {
    one_of(
        rng,
        &["1 2]", "1.", "1.]", "1\n.5]", "];", "other\n]", "1;;"],
    )
}

fn early_end(rng: &mut Rng) -> Vec<u8> {
    let mut text = one_of(rng, &["", "1", "1;", "1 +", "other.", "(b"]);
    text.extend(blanks(rng).as_bytes());
    text
}

/// No point, or no digit right behind it.
fn large_integer(rng: &mut Rng) -> Vec<u8> {
    let zeros = "0".repeat(rng.below(9));
    let number = *rng.pick(&["2147483648", "99999999999", "12345678901234567890"]);
    let end = *rng.pick(&[
        "]", "", ".", ".]", ".x5]", " .5]", ". 5]", "\n.5]", " < 1.5]",
    ]);
    (front(rng) + &zeros + number + end).into_bytes()
}

/// Over 15 digits, often by idle zeros alone.
fn long_real(rng: &mut Rng) -> Vec<u8> {
    let before = rng.between(1, 16);
    let behind = rng.between(16 - before, 18).max(1);
    let digit = *rng.pick(&["0", "1", "9"]);
    let (before, behind) = (digit.repeat(before), "0".repeat(behind));
    let end = *rng.pick(&["]", "", ".5]", "x]"]);
    format!("{}{before}.{behind}{end}", front(rng)).into_bytes()
}

fn deep(rng: &mut Rng) -> Vec<u8> {
    let open = *rng.pick(&["(", "-", "!", "(\n"]);
    (front(rng) + &open.repeat(rng.between(65, 70))).into_bytes()
}

fn long_name(rng: &mut Rng) -> Vec<u8> {
    let before = *rng.pick(&["", "other.", "other\n.\n", "1;", "1 "]);
    let name = "N".repeat(rng.between(65, 70));
    let end = *rng.pick(&["]", "", "\"", "=1]"]);
    (front(rng) + before + &name + end).into_bytes()
}

fn long_string(rng: &mut Rng) -> Vec<u8> {
    let part = *rng.pick(&["s", "\\n", "\\\"", ";"]);
    let content = part.repeat(rng.between(1_025, 1_030));
    let end = *rng.pick(&["]", "", " 1]", "&"]);
    format!("{}\"{content}\"{end}", front(rng)).into_bytes()
}

fn defined_twice(rng: &mut Rng) -> Vec<u8> {
    let between = format!("1{};{}", blanks(rng), blanks(rng));
    (front(rng) + &between + *rng.pick(&["a=1]", "A=1]", "a", "A &"])).into_bytes()
}

/// The 257th definition's name, with blanks on both sides of the `;` before it.
fn definitions(rng: &mut Rng) -> Vec<u8> {
    let all: Vec<String> = (0..256).map(|number| format!("d{number}=1")).collect();
    let between = format!("{};{}", blanks(rng), blanks(rng));
    let end = *rng.pick(&["more=1]", "more", "m &"]);
    format!("[{}{between}{end}", all.join(";")).into_bytes()
}

/// The 1,025th node: an operator, an operand, or the first of another definition.
fn nodes(rng: &mut Rng) -> Vec<u8> {
    let full = format!("[a=-1{}", "+1".repeat(511));
    let (before, ends): (String, [&str; 4]) = match rng.below(3) {
        0 => (full, ["+1]", "?1:1]", "is 1]", "=?=1]"]),
        1 => (
            format!("[a={}", "1+".repeat(512)),
            ["1]", "x;", "other.x]", "\";\"]"],
        ),
        _ => (full + ";\nb\n=", ["c]", "other.c]", "-1]", "\"s\"]"]),
    };
    let blanks = blanks(rng);
    format!("{before}{blanks}{}", rng.pick(&ends)).into_bytes()
}

/// A text that is read, but with the blanks of a print is over 16,384 bytes.
pub fn long_print(rng: &mut Rng) -> Vec<u8> {
    let string = "s".repeat(56);
    let definition = |number| format!("d{number}=\"{string}\"");
    let all: Vec<String> = (0..rng.between(250, 256)).map(definition).collect();
    format!("[{}]", all.join(";")).into_bytes()
}
