//! Writes the commit of the checkout into the command, for `--version`. It fails at an opt-level at which the compiler
//! loses stores, whoever asks for that: the profile, a configuration of cargo, or the environment.

use std::env;
use std::fs;
use std::path::{Path, PathBuf};
use std::process::Command;

/// What a new commit, or another one checked out, changes.
const STATE: [&str; 2] = ["../.git/HEAD", "../.git/index"];

fn main() {
    let level = env::var("OPT_LEVEL").expect("cargo names the opt-level");
    assert!(level == "0" || level == "1", "at opt-level {level} rustc may lose a store: see tools/test-compiler");
    println!("cargo:rustc-env=RULMEDEI_COMMIT={}", commit().unwrap_or("unknown".to_string()));
    let sources = ["build.rs", "src", "../crates.txt", "../rust/rulmedei/src"];
    for path in sources.into_iter().chain(STATE.into_iter().filter(|path| Path::new(path).exists())) {
        println!("cargo:rerun-if-changed={path}");
    }
    for path in parts() {
        println!("cargo:rerun-if-changed={}", path.display());
    }
}

/// What the crates are made from: `rt` writes beside these folders.
fn parts() -> Vec<PathBuf> {
    let crates = fs::read_dir("../crates").into_iter().flatten().flatten();
    let parts = crates.flat_map(|entry| ["src", "specs", "proofs"].map(|part| entry.path().join(part)));
    parts.filter(|part| part.is_dir()).collect()
}

/// The commit as git names it; none without git, or outside a checkout.
fn commit() -> Option<String> {
    let said = Command::new("git").args(["describe", "--always", "--dirty"]).output().ok()?;
    let name = String::from_utf8(said.stdout).ok()?.trim().to_string();
    (said.status.success() && !name.is_empty()).then_some(name)
}
