//! The reference's program: `write` writes the stored files, `check` compares them, `plate` is the program `plate`,
//! `quote` the program that prints the quote page, `sample` the one that prints a sample, `convert` the one that prints
//! a stored map text with its greys lowered, `sketch` the one that prints the totals and caps of a sketch, `two_heads`
//! the one that prints the drill list of a laser with two heads. `map`, `list` and `shelf` are for maps of any side.

mod any_side;

use std::fs;
use std::io::{self, Read, Write};
use std::path::{Path, PathBuf};
use std::process::ExitCode;

use reference::{convert, plate, quote, sample_text, sketch, stored, two_heads_text, LONGEST_INPUT};

/// What can be asked for.
const USES: &str = "write | check | plate | quote | sample | convert | sketch | two_heads | map | list | shelf";

fn main() -> ExitCode {
    let words: Vec<String> = std::env::args().skip(1).collect();
    let words: Vec<&str> = words.iter().map(String::as_str).collect();
    let done = match words[..] {
        ["write"] => write(),
        ["check"] => check(),
        // one byte more than the longest input is enough to tell that it's longer
        ["plate"] => print(io::stdin().take(LONGEST_INPUT as u64 + 1), plate),
        ["two_heads"] => print(io::stdin().take(LONGEST_INPUT as u64 + 1), two_heads_text),
        ["quote"] => print(io::stdin(), quote),
        ["sample"] => print(io::empty(), |_| sample_text()),
        ["convert"] => print(io::stdin(), convert),
        ["sketch"] => print(io::stdin(), sketch),
        ["map" | "list" | "shelf", ..] => any_side::any_side(&words),
        _ => Err(format!("use: reference {USES}")),
    };
    match done {
        Ok(status) => status,
        Err(message) => {
            eprintln!("{message}");
            ExitCode::FAILURE
        }
    }
}

/// The top of the repository.
fn top() -> PathBuf {
    Path::new(env!("CARGO_MANIFEST_DIR")).join("..")
}

/// The stored files as they ought to be.
fn stored_files() -> Result<Vec<(String, Vec<u8>)>, String> {
    stored::files().map_err(|refusal| format!("reference: a run was refused, {}", refusal.number()))
}

/// Writes all stored files and the folders they are in.
fn write() -> Result<ExitCode, String> {
    for (path, bytes) in stored_files()? {
        let full = top().join(&path);
        if let Some(folder) = full.parent() {
            fs::create_dir_all(folder).map_err(|error| format!("{path}: {error}"))?;
        }
        fs::write(&full, bytes).map_err(|error| format!("{path}: {error}"))?;
    }
    Ok(ExitCode::SUCCESS)
}

/// Compares every stored file byte for byte, and looks for files in vectors/ and samples/ that are none of them.
fn check() -> Result<ExitCode, String> {
    let files = stored_files()?;
    let mut wrong = 0;
    for (path, bytes) in &files {
        match fs::read(top().join(path)) {
            Ok(found) if found == *bytes => (),
            Ok(_) => {
                println!("{path}: differs");
                wrong += 1;
            }
            Err(error) => {
                println!("{path}: {error}");
                wrong += 1;
            }
        }
    }
    for path in found_in("vectors")?.into_iter().chain(found_in("samples")?) {
        if !files.iter().any(|(stored, _)| *stored == path) {
            println!("{path}: not written by the reference");
            wrong += 1;
        }
    }
    if wrong > 0 {
        println!("reference: {wrong} stored outputs differ");
        return Ok(ExitCode::FAILURE);
    }
    println!("reference: {} stored outputs hold", files.len());
    Ok(ExitCode::SUCCESS)
}

/// The paths of all files in a folder and the folders within it; none if the folder is missing.
fn found_in(folder: &str) -> Result<Vec<String>, String> {
    let full = top().join(folder);
    let mut paths = Vec::new();
    if !full.exists() {
        return Ok(paths);
    }
    for item in fs::read_dir(full).map_err(|error| format!("{folder}: {error}"))? {
        let item = item.map_err(|error| format!("{folder}: {error}"))?;
        let path = format!("{folder}/{}", item.file_name().to_string_lossy());
        if item.path().is_dir() {
            paths.extend(found_in(&path)?);
        } else {
            paths.push(path);
        }
    }
    paths.sort();
    Ok(paths)
}

/// A program: reads its input and prints its output.
fn print(mut from: impl Read, program: fn(&[u8]) -> Vec<u8>) -> Result<ExitCode, String> {
    let mut input = Vec::new();
    from.read_to_end(&mut input).map_err(|error| error.to_string())?;
    io::stdout().write_all(&program(&input)).map_err(|error| error.to_string())?;
    Ok(ExitCode::SUCCESS)
}
