//! The library and the reference side by side: `difftest CASES SEED` on cases that are the same in every run, then on
//! so many drawn from the seed, of which the first thousand make every call at every side; and `difftest vectors` on
//! the maps of `vectors/runs.csv`, `vectors/ribbed.csv` and `vectors/two-heads.csv`.

mod bounds;
mod cases;
mod counts;
mod coverage;
mod expected;
mod fixed_kinds;
mod grey_kinds;
mod heads;
mod heads_kinds;
mod knit_kinds;
mod library;
mod older;
mod parts;
mod plate_kinds;
mod random;
mod renewals;
mod runs;
mod samples;
mod shelves;
mod side_by_side;
mod sketch_kinds;
mod sketches;
mod stage_kinds;
mod stages;
mod texts;
mod tours;
mod vectors;
mod wide;
mod wrong_heads;

use std::process::ExitCode;

use coverage::Coverage;
use random::Random;
use side_by_side::SideBySide;

/// Within so many cases every call has returned each of its codes at every side, those that look at the knit on ribbed
/// cloth too, and there was every kind of comparison, shelf, Keep, Restore, knit, greys, sketch and Two Heads.
const COVERED: u64 = 1000;

fn main() -> ExitCode {
    let words: Vec<String> = std::env::args().skip(1).collect();
    let words: Vec<&str> = words.iter().map(String::as_str).collect();
    let done = match words[..] {
        ["vectors"] => compare_vectors(),
        [cases, seed] => match (cases.parse(), seed.parse()) {
            (Ok(cases), Ok(seed)) if cases >= COVERED => compare_cases(cases, seed),
            _ => Err(usage()),
        },
        _ => Err(usage()),
    };
    match done {
        Ok(line) => {
            println!("{line}");
            ExitCode::SUCCESS
        }
        Err(what) => {
            println!("{what}");
            ExitCode::FAILURE
        }
    }
}

fn usage() -> String {
    format!("use: difftest CASES SEED, with {COVERED} cases or more, or difftest vectors")
}

fn compare_vectors() -> Result<String, String> {
    let [plain, ribbed, heads] = vectors::compare()?;
    let counts = format!("{plain} lines of runs.csv, {ribbed} of ribbed.csv and {heads} of two-heads.csv");
    Ok(format!("vectors: the library gives the same {counts}"))
}

/// Compares the cases and prints the calls by name and code. Returns the last line (S 15.1).
fn compare_cases(cases: u64, seed: u64) -> Result<String, String> {
    let fixed = compare_fixed()?;
    let mut random = Random::new(seed);
    let mut calls = SideBySide::default();
    let (mut codes, mut kinds) = (None, None);
    for case in 1..=cases {
        cases::case(case - 1, &mut random, &mut calls)
            .map_err(|difference| format!("case {case} of seed {seed}, after {} calls: {difference}", calls.total()))?;
        if codes.is_none() && calls.coverage.missing().is_empty() && calls.coverage.missing_ribbed().is_empty() {
            codes = Some(case);
        }
        if kinds.is_none() && !calls.coverage.wants_kinds() {
            kinds = Some(case);
        }
        if case == COVERED {
            covered(&calls.coverage, &fixed.coverage)?;
        }
    }
    for ((call, code), count) in &calls.calls {
        println!("{call},{code},{count}");
    }
    let [codes, kinds] = [codes, kinds].map(|covered| covered.unwrap_or(cases));
    println!("each of the sixteen calls, the renewal by itself and the lowering of greys was answered, and gave each");
    println!("refusal, at each side that has it, those that look at the knit on plain cloth and on ribbed, within");
    println!(
        "{codes} cases; every kind of comparison, shelf, Keep, Restore, knit, greys, sketch and Two Heads was met, and"
    );
    println!("every wrong rule for two heads told from the right one, within {kinds} cases");
    println!("{}", fixed_kinds::said());
    let total = fixed.total() + calls.total();
    Ok(format!("{total} calls compared in the fixed cases and {cases} of seed {seed}, no difference"))
}

/// Compares the fixed cases, whose calls are counted by themselves: what the others have to show, these do not.
fn compare_fixed() -> Result<SideBySide, String> {
    let mut calls = SideBySide::default();
    cases::fixed(&mut calls)
        .map_err(|difference| format!("the fixed cases, after {} calls: {difference}", calls.total()))?;
    Ok(calls)
}

/// Whether all was seen that has to be; else what was not.
fn covered(coverage: &Coverage, fixed: &Coverage) -> Result<(), String> {
    let (codes, ribbed, kinds) = (coverage.missing(), coverage.missing_ribbed(), coverage.missing_kinds());
    let fixed = fixed.missing_fixed();
    if codes.is_empty() && ribbed.is_empty() && kinds.is_empty() && fixed.is_empty() {
        return Ok(());
    }
    Err(format!(
        "not seen within {COVERED} cases (call, side, code): {codes:?}; on ribbed cloth: {ribbed:?}; \
         of the kinds: {kinds:?}; of the fixed cases: {fixed:?}"
    ))
}
