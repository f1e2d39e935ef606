//! Checks of the sources and pages, run from the top of the repository: see `USE`.

mod antt;
mod contracts;
mod mentions;
mod names;
mod pages;
mod promises;
mod rattle;
mod refusals;
mod text;
mod tree;

use std::path::Path;
use std::process::ExitCode;

use tree::Tree;

const USE: &str = "use: xtask contracts [--list] | promises [--check] | names | refusals";

fn main() -> ExitCode {
    let words: Vec<String> = std::env::args().skip(1).collect();
    let words: Vec<&str> = words.iter().map(|word| word.as_str()).collect();
    let name = words.first().copied().unwrap_or("xtask");
    match run(&words) {
        Ok(lines) => {
            lines.iter().for_each(|line| println!("{line}"));
            ExitCode::SUCCESS
        }
        Err(lines) => {
            lines.iter().for_each(|line| eprintln!("{name}: {line}"));
            ExitCode::FAILURE
        }
    }
}

/// The lines to print, or those that say what is wrong.
fn run(words: &[&str]) -> Result<Vec<String>, Vec<String>> {
    let root = Path::new(".");
    let tree = || Tree::load(root).map_err(|why| vec![why]);
    match words {
        ["contracts"] => contracts::check(&tree()?, false),
        ["contracts", "--list"] => contracts::check(&tree()?, true),
        ["promises"] => promises::write(&tree()?, root),
        ["promises", "--check"] => promises::check(&tree()?, root),
        ["names"] => names::check(root),
        ["refusals"] => refusals::check(root),
        _ => Err(vec![USE.to_string()]),
    }
}
