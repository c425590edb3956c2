//! The lines of the command, as docs/COMMANDS.md gives them.

use crate::graphviz::{EXAMPLE, EXAMPLE_GRAPH};
use std::io::Write;
use std::process::{Command, Output, Stdio};

fn run(arguments: &[&str], input: &[u8]) -> Output {
    let mut child = Command::new(env!("CARGO_BIN_EXE_reference"))
        .args(arguments)
        .stdin(Stdio::piped())
        .stdout(Stdio::piped())
        .stderr(Stdio::piped())
        .spawn()
        .unwrap();
    // A command that stops early closes its input; that is no fault.
    let _ = child.stdin.take().unwrap().write_all(input);
    child.wait_with_output().unwrap()
}

/// Standard output and exit status with a text on standard input.
fn answer(arguments: &[&str], input: &[u8]) -> (String, i32) {
    let output = run(arguments, input);
    let lines = String::from_utf8(output.stdout).unwrap();
    (lines, output.status.code().unwrap())
}

/// A file of this content in the tests' own directory.
fn file(name: &str, content: &[u8]) -> String {
    let path = std::path::Path::new(env!("CARGO_TARGET_TMPDIR")).join(name);
    std::fs::write(&path, content).unwrap();
    path.to_str().unwrap().to_string()
}

#[test]
fn read_accepted() {
    let lines = "-: accepted, 2 definitions, 4 nodes\n".to_string();
    assert_eq!(answer(&["read", "-"], b"[a = 1 + 2; b = c]"), (lines, 0));
    let path = file("empty.ad", b"[]");
    let lines = format!("{path}: accepted, 0 definitions, 0 nodes\n");
    assert_eq!(answer(&["read", &path], b""), (lines, 0));
}

#[test]
fn read_refused() {
    let refused = |text: &[u8]| {
        let (lines, status) = answer(&["read", "-"], text);
        assert_eq!(status, 1);
        lines
    };
    let lines = refused(b"[a = 1;\n\tb = \"\xE4\";]\n");
    let expected = "-: refused 3 at 13 (line 2, column 6): bad byte in a string\n\
                    \x20b = \"?\";]\n     ^\n";
    assert_eq!(lines, expected);
    let lines = refused(b"[a = 1 2]");
    let expected = "-: refused 4 at 7 (line 1, column 8): token does not fit here\n\
                    [a = 1 2]\n       ^\n";
    assert_eq!(lines, expected);
    // The place at the text's length: behind the last line, or on an empty line.
    let lines = refused(b"[a = 1");
    let expected = "-: refused 4 at 6 (line 1, column 7): text ends early\n\
                    [a = 1\n      ^\n";
    assert_eq!(lines, expected);
    let lines = refused(b"[a = 1\r\n");
    let expected = "-: refused 4 at 8 (line 2, column 1): text ends early\n\n^\n";
    assert_eq!(lines, expected);
    let lines = refused(b"");
    assert_eq!(
        lines,
        "-: refused 4 at 0 (line 1, column 1): text ends early\n\n^\n"
    );
    // A place of 0 by rule has no line and no caret.
    let lines = refused(&[b' '; 16_385]);
    assert_eq!(lines, "-: refused 2 at 0: text over 16,384 bytes\n");
}

#[test]
fn print_command() {
    let printed = answer(&["print", "-"], b"[ A=(1+2)+3 ;B=--A; ]");
    assert_eq!(printed, ("[A = 1 + 2 + 3; B = --A]\n".to_string(), 0));
    let (lines, status) = answer(&["print", "-"], b"[;]");
    assert!(lines.starts_with("-: refused 4 at 1 (line 1, column 2): "));
    assert_eq!(status, 1);
    let parts: Vec<String> = (0..256)
        .map(|n| format!("d{n}=\"{}\"", "s".repeat(56)))
        .collect();
    let printed = answer(&["print", "-"], format!("[{}]", parts.join(";")).as_bytes());
    assert_eq!(
        printed,
        (
            "-: refused 11 at 0: printed text over 16,384 bytes\n".to_string(),
            1
        )
    );
}

#[test]
fn match_command() {
    let first = file("first.ad", b"[Requirements = other.w > 50; Rank = 3]");
    let second = file("second.ad", b"[w = 60; Requirements = true]");
    let matched = answer(&["match", &first, &second], b"");
    let lines = "matched\nfirst rank 3\nsecond rank 0\nsteps 6 of 6\n";
    assert_eq!(matched, (lines.to_string(), 0));
    let matched = answer(&["match", &first, &second, "6"], b"");
    assert_eq!(matched, (lines.to_string(), 0));
    let short = answer(&["match", &first, &second, "5"], b"");
    assert_eq!(short, ("not done\nsteps 5 of 6\n".to_string(), 1));
    let unmatched = answer(&["match", "-", &second], b"[Rank = other.w]");
    let lines =
        "unmatched\nfirst ad has no Requirements\nfirst rank 60\nsecond rank 0\nsteps 3 of 3\n";
    assert_eq!(unmatched, (lines.to_string(), 1));
    let first = file("no-requirements.ad", b"[Rank = 1 - 2]");
    let unmatched = answer(&["match", &first, "-"], b"[Requirements = other.gone]");
    let lines = "unmatched\nfirst ad has no Requirements\nsecond Requirements is undefined\n\
                 first rank 0\nsecond rank 0\nsteps 4 of 4\n";
    assert_eq!(unmatched, (lines.to_string(), 1));
    // Both refusals are shown.
    let bad = file("bad.ad", b"[;]");
    let (lines, status) = answer(&["match", &bad, "-"], b"");
    assert_eq!(lines.matches("refused").count(), 2);
    assert_eq!(status, 1);
}

#[test]
fn graph_command() {
    let first = file("graph-first.ad", EXAMPLE[0].as_bytes());
    let second = file("graph-second.ad", EXAMPLE[1].as_bytes());
    let expected = (EXAMPLE_GRAPH.to_string(), 0);
    assert_eq!(answer(&["graph", &first, &second], b""), expected);
    let input = EXAMPLE[1].as_bytes();
    assert_eq!(answer(&["graph", &first, "-"], input), expected);
    let input = EXAMPLE[0].as_bytes();
    assert_eq!(answer(&["graph", "-", &second], input), expected);
}

/// The lines of what is refused and nothing else, as `match` has them.
#[test]
fn graph_of_refused_texts() {
    let fine = file("graph-fine.ad", b"[a = 1]");
    let bad = file("graph-bad.ad", b"[a = \"\\x\"]");
    let first = format!(
        "{bad}: refused 3 at 5 (line 1, column 6): bad escape in a string\n\
         [a = \"\\x\"]\n     ^\n"
    );
    let second = "-: refused 4 at 2 (line 2, column 1): text ends early\n\n^\n";
    for command in ["graph", "match"] {
        let refused = answer(&[command, &bad, &fine], b"");
        assert_eq!(refused, (first.clone(), 1));
        let refused = answer(&[command, &fine, "-"], b"[\n");
        assert_eq!(refused, (second.to_string(), 1));
        let refused = answer(&[command, &bad, "-"], b"[\n");
        assert_eq!(refused, (format!("{first}{second}"), 1));
        let refused = answer(&[command, "-", &bad], b"[\n");
        assert_eq!(refused, (format!("{second}{first}"), 1));
    }
    let refused = answer(&["print", &bad], b"");
    assert_eq!(refused, (first, 1));
}

#[test]
fn usage_and_input_errors() {
    let second = file("fine.ad", b"[]");
    let cases: [&[&str]; 15] = [
        &[],
        &["read"],
        &["read", "-", "-"],
        &["write", "-"],
        &["match", "-", "-"],
        &["match", &second, &second, "65536"],
        &["match", &second, &second, "+1"],
        &["match", &second, &second, ""],
        &["graph"],
        &["graph", &second],
        &["graph", "-", "-"],
        &["graph", &second, &second, "1"],
        &["graph", &second, "no such file"],
        &["read", "no such file"],
        &["generate", "x", "1"],
    ];
    for arguments in cases {
        let output = run(arguments, b"");
        assert_eq!(output.status.code(), Some(2), "{arguments:?}");
        assert!(output.stdout.is_empty(), "{arguments:?}");
        assert!(!output.stderr.is_empty(), "{arguments:?}");
    }
}

#[test]
fn generate_command() {
    let (lines, status) = answer(&["generate", "3", "2400"], b"");
    assert_eq!(status, 0);
    assert!(lines.ends_with("gaps: none\n"), "{lines}");
    let (lines, _) = answer(&["generate", "3", "2"], b"");
    assert!(
        lines
            .lines()
            .last()
            .unwrap()
            .starts_with("gaps: refusal 1, "),
        "{lines}"
    );
}
