//! Reads a map text on standard input and prints its drill list, on plain cloth:
//!
//!     printf '2\n128,128\n128,128\n' | cargo run -q --example list

use std::error::Error;
use std::io::{self, Read, Write};
use std::process::ExitCode;

use rulmedei::{advance, cells, drill_list, list_room, load, map_text, pyramid_length, Refusal, PLAIN};

fn main() -> ExitCode {
    match print_list() {
        Ok(()) => ExitCode::SUCCESS,
        Err(error) => {
            eprintln!("{error}");
            ExitCode::FAILURE
        }
    }
}

fn print_list() -> Result<(), Box<dyn Error>> {
    let mut text = Vec::new();
    io::stdin().read_to_end(&mut text)?;
    io::stdout().write_all(&list_of(&text)?)?;
    Ok(())
}

/// The drill list of a map, whole.
fn list_of(text: &[u8]) -> Result<Vec<u8>, Refusal> {
    let mut greys = vec![0; cells(256)];
    let side = map_text(text, &mut greys)?;
    let mut pyramid = vec![0; pyramid_length(side)];
    let mut serials = vec![0; cells(side)];
    let mut order = vec![0; cells(side)];
    let start = load(side, PLAIN, &greys, &mut pyramid, &mut serials, &mut order)?;
    let end = advance(start, u32::MAX, &mut pyramid, &mut serials, &mut order)?.progress;
    let mut out = vec![0; list_room(side)];
    let length = drill_list(end, &pyramid, &serials, &order, &mut out)?;
    out.truncate(length);
    Ok(out)
}
