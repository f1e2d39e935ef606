//! Has the proved library written by `rt lib` in `crates/rulmedei`, where it isn't up to date, and links it.

use std::path::{Path, PathBuf};
use std::process::{Command, ExitCode};
use std::time::SystemTime;
use std::{env, fs, io};

/// The crate of the library, and where its archive is written.
const LIBRARY: &str = "crates/rulmedei";
const OUT: &str = "crates/rulmedei/out";
/// The folders of a crate that it is made from: `rt` writes beside them.
const PARTS: [&str; 3] = ["src", "specs", "proofs"];

fn main() -> ExitCode {
    match build() {
        Ok(()) => ExitCode::SUCCESS,
        Err(error) => {
            eprintln!("{error}");
            ExitCode::FAILURE
        }
    }
}

fn build() -> io::Result<()> {
    let top = top()?;
    let archive = top.join(OUT).join("librulmedei.a");
    let sources = sources(&top)?;
    if !is_current(&archive, &sources)? {
        write_archive(&top)?;
    }
    for path in sources.iter().chain([&archive]) {
        println!("cargo:rerun-if-changed={}", path.display());
    }
    println!("cargo:rustc-link-search=native={}", top.join(OUT).display());
    println!("cargo:rustc-link-lib=static=rulmedei");
    Ok(())
}

/// The top of the repository.
fn top() -> io::Result<PathBuf> {
    let package = env::var_os("CARGO_MANIFEST_DIR").ok_or(io::Error::other("cargo names no folder"))?;
    Path::new(&package).join("../..").canonicalize()
}

/// What the archive is made from: the list of crates, and what each of them has.
fn sources(top: &Path) -> io::Result<Vec<PathBuf>> {
    let mut all = vec![top.join("crates.txt")];
    for entry in fs::read_dir(top.join("crates"))? {
        let folder = entry?.path();
        all.extend(PARTS.iter().map(|part| folder.join(part)).filter(|part| part.is_dir()));
    }
    all.sort();
    Ok(all)
}

/// Whether the archive is there and nothing that it is made from is newer.
fn is_current(archive: &Path, sources: &[PathBuf]) -> io::Result<bool> {
    let Ok(written) = fs::metadata(archive).and_then(|about| about.modified()) else {
        return Ok(false);
    };
    for source in sources {
        if newest(source)? > written {
            return Ok(false);
        }
    }
    Ok(true)
}

/// When a file, or the newest file or folder under a folder, was last changed.
fn newest(path: &Path) -> io::Result<SystemTime> {
    let about = fs::metadata(path)?;
    let mut last = about.modified()?;
    if about.is_dir() {
        for entry in fs::read_dir(path)? {
            last = last.max(newest(&entry?.path())?);
        }
    }
    Ok(last)
}

/// Proves the library and writes the archive.
fn write_archive(top: &Path) -> io::Result<()> {
    let ran = Command::new("rt").arg("lib").current_dir(top.join(LIBRARY)).status();
    let status = ran.map_err(|error| io::Error::other(not_run(&error)))?;
    if status.success() {
        Ok(())
    } else {
        Err(io::Error::other(format!("rt lib in {LIBRARY}: {status}")))
    }
}

/// Why `rt` did not run, in words.
fn not_run(error: &io::Error) -> String {
    let needed = "it is needed to prove and build the library";
    if error.kind() == io::ErrorKind::NotFound {
        return format!("the Rattle kit's command `rt` was not found; {needed}");
    }
    format!("the Rattle kit's command `rt` could not be run ({error}); {needed}")
}
