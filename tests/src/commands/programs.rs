//! The programs that print what docs/COMMANDS.md says, and what each prints.

use super::case::{Case, Command, COMMANDS};
use crate::report::plain;
use std::io::Write;
use std::path::{Path, PathBuf};
use std::process::{self, Stdio};

/// How much of an output is shown.
const SHOWN: usize = 800;

const KIT_LIBRARIES: &str = "KIT_LIBRARIES";

pub struct Program {
    pub name: &'static str,
    /// Where it is built, from the repository's root.
    pub path: &'static str,
    /// Whether it is linked with the C library of the Rattle kit, in the folder that KIT_LIBRARIES names.
    of_the_kit: bool,
    /// Whether its exit status is that of docs/COMMANDS.md.
    has_status: bool,
}

pub const PROGRAMS: [Program; 3] = [
    Program {
        name: "reference",
        path: "reference/target/release/reference",
        of_the_kit: false,
        has_status: true,
    },
    Program {
        name: "classad",
        path: "bindings/rust/target/release/classad",
        of_the_kit: false,
        has_status: true,
    },
    Program {
        name: "classad_cli",
        path: "target/bin/classad_cli",
        of_the_kit: true,
        has_status: false,
    },
];

/// What a program gave: standard output, and how it ended where that counts.
#[derive(Clone, Default, PartialEq, Eq)]
pub struct Output {
    pub text: Vec<u8>,
    pub errors: Vec<u8>,
    pub status: Option<i32>,
    pub by_signal: bool,
}

impl Output {
    /// The same lines and no others; the same status where both have one.
    pub fn agrees(&self, other: &Output) -> bool {
        let same_status = match (self.status, other.status) {
            (Some(one), Some(two)) => one == two,
            _ => true,
        };
        let quiet = self.errors.is_empty() && other.errors.is_empty();
        let ended = !self.by_signal && !other.by_signal;
        self.text == other.text && same_status && quiet && ended
    }

    pub fn show(&self) -> String {
        let mut lines = format!("{}\n", plain(&self.text, SHOWN));
        if let Some(status) = self.status {
            lines += &format!("  status {status}\n");
        }
        if self.by_signal {
            lines += "  ended by a signal\n";
        }
        if !self.errors.is_empty() {
            lines += &format!("  standard error: {}\n", plain(&self.errors, SHOWN));
        }
        lines
    }

    /// What comes behind it, the larger status counting.
    fn and(mut self, next: Output) -> Output {
        self.text.extend(next.text);
        self.errors.extend(next.errors);
        self.status = self.status.max(next.status);
        self.by_signal |= next.by_signal;
        self
    }
}

fn root() -> PathBuf {
    Path::new(env!("CARGO_MANIFEST_DIR")).join("..")
}

impl Program {
    pub fn is_built(&self) -> bool {
        root().join(self.path).is_file()
    }

    /// `reference` has no trace.
    pub fn has(&self, command: Command) -> bool {
        self.name != "reference" || command != Command::Trace
    }

    /// Runs a case, whose files are in the folder.
    pub fn run(&self, case: &Case, folder: &Path) -> Output {
        if self.name != "reference" || case.command != Command::Check {
            let word = COMMANDS[case.command as usize];
            return self.start(word, &case.arguments(), case.input(), folder);
        }
        // It reads one file at a time.
        let each = case.arguments().into_iter().map(|file| {
            let input = if file == "-" { case.input() } else { None };
            self.start("read", &[file], input, folder)
        });
        each.reduce(Output::and).unwrap_or_default()
    }

    /// What starts it; as `bin/classad_cli` does, but for looking at what it was built from.
    fn command(&self) -> process::Command {
        let program = root().join(self.path);
        if !self.of_the_kit {
            return process::Command::new(program);
        }
        let libraries =
            std::env::var_os(KIT_LIBRARIES).expect("tests/run names the kit's libraries");
        let libraries = PathBuf::from(libraries);
        let mut command = process::Command::new(libraries.join("ld-linux-x86-64.so.2"));
        command.arg("--library-path").arg(libraries).arg(program);
        command
    }

    fn start(&self, word: &str, files: &[String], input: Option<&[u8]>, folder: &Path) -> Output {
        let mut child = self
            .command()
            .arg(word)
            .args(files)
            .current_dir(folder)
            .stdin(if input.is_some() {
                Stdio::piped()
            } else {
                Stdio::null()
            })
            .stdout(Stdio::piped())
            .stderr(Stdio::piped())
            .spawn()
            .expect("the program starts");
        if let (Some(mut pipe), Some(bytes)) = (child.stdin.take(), input) {
            // A program need not read all of a text that is too long.
            let _ = pipe.write_all(bytes);
        }
        let ended = child.wait_with_output().expect("the program ends");
        Output {
            text: ended.stdout,
            errors: ended.stderr,
            status: ended.status.code().filter(|_| self.has_status),
            by_signal: ended.status.code().is_none(),
        }
    }
}
