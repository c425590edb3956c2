//! Links the proved library, and takes down which kit there was when it was built.

use std::path::Path;
use std::process::Command;

const FOLDER: &str = concat!(env!("CARGO_MANIFEST_DIR"), "/../../target/staticlib");

fn main() {
    let library = format!("{FOLDER}/libclassad.a");
    // The library's change is what makes this run again: the kit is that of the library.
    println!("cargo::rerun-if-changed={library}");
    println!("cargo::rerun-if-changed=build.rs");
    if !Path::new(&library).is_file() {
        println!(
            "cargo::error=the proved library target/staticlib/libclassad.a is not built: run \
             tests/build-library, or bin/classad, which builds all, from the repository's top folder"
        );
        return;
    }
    println!("cargo::rustc-link-search=native={FOLDER}");
    println!("cargo::rustc-link-lib=static=classad");
    let kit = kit().unwrap_or("unknown".to_string());
    println!("cargo::rustc-env=CLASSAD_KIT={kit}");
}

/// The kit's one line about itself; none where there is no kit.
fn kit() -> Option<String> {
    let said = Command::new("rt").arg("version").output().ok()?;
    let text = String::from_utf8(said.stdout).ok()?;
    let line = text.lines().next()?.trim();
    Some(line.to_string()).filter(|line| said.status.success() && !line.is_empty())
}
