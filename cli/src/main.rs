//! The command `rulmedei`: maps in, lists, pictures and quotes out. The proved library does the work; what is here
//! reads files, hands their contents over, and writes down what the library answers.

mod arguments;
mod convert;
mod drill;
mod dxf;
mod engine;
mod excellon;
mod failure;
mod figures;
mod files;
mod help;
mod html;
mod lists;
mod maps;
mod pbm;
mod pgm;
mod places;
mod plates;
mod quote;
mod sample;
mod sketch;
mod svg;

use std::ffi::OsString;
use std::io::Write;
use std::process::ExitCode;

use arguments::{Arguments, Takes};
use failure::Failure;

/// A subcommand: its name, what it takes, what it says of itself, and what it makes.
type Subcommand = (&'static str, &'static Takes, &'static str, fn(&Arguments) -> Result<Vec<u8>, Failure>);

const SUBCOMMANDS: [Subcommand; 8] = [
    ("drill", &drill::TAKES, help::DRILL, drill::run),
    ("quote", &quote::TAKES, help::QUOTE, quote::run),
    ("figures", &figures::TAKES, help::FIGURES, figures::run),
    ("sketch", &sketch::TAKES, help::SKETCH, sketch::run),
    ("sample", &sample::TAKES, help::SAMPLE, sample::run),
    ("convert", &convert::TAKES, help::CONVERT, convert::run),
    ("compare", &plates::COMPARE, help::COMPARE, plates::run_compare),
    ("shelf", &plates::SHELF, help::SHELF, plates::run_shelf),
];

fn main() -> ExitCode {
    let words: Vec<OsString> = std::env::args_os().skip(1).collect();
    match run(&words) {
        Ok(()) => ExitCode::SUCCESS,
        Err(failure) => {
            // where nothing can be said, the status says it
            let _ = writeln!(std::io::stderr(), "rulmedei: {failure}");
            ExitCode::from(failure.status())
        }
    }
}

fn run(words: &[OsString]) -> Result<(), Failure> {
    let Some((name, rest)) = words.split_first() else {
        return Err(Failure::Usage("a subcommand is needed; see 'rulmedei --help'".to_string()));
    };
    if asks_for_help(name) {
        return files::write(None, help::COMMAND.as_bytes());
    }
    if name == "--version" {
        return files::write(None, format!("{}\n", help::VERSION).as_bytes());
    }
    let found = SUBCOMMANDS.iter().find(|(subcommand, ..)| name == subcommand);
    let Some((name, takes, help, make)) = found else {
        let words = format!("there is no subcommand '{}'; see 'rulmedei --help'", name.to_string_lossy());
        return Err(Failure::Usage(words));
    };
    if rest.iter().take_while(|word| *word != "--").any(asks_for_help) {
        return files::write(None, help.as_bytes());
    }
    subcommand(rest, takes, *make).map_err(|failure| match failure {
        Failure::Usage(words) => Failure::Usage(format!("{words}; see 'rulmedei {name} --help'")),
        other => other,
    })
}

fn asks_for_help(word: &OsString) -> bool {
    word == "--help" || word == "-h"
}

/// The output is made as a whole, and then written.
fn subcommand(
    words: &[OsString],
    takes: &Takes,
    make: fn(&Arguments) -> Result<Vec<u8>, Failure>,
) -> Result<(), Failure> {
    let arguments = Arguments::read(words, takes)?;
    let output = make(&arguments)?;
    files::write(arguments.value("-o"), &output)
}
