//! Makes a plate of each map text, on plain cloth, and prints the plates in the order of their shelf: the holes and the
//! file of each, and whether it is the same as the one before it. All maps have to be of one side. From the
//! repository's top:
//!
//!     cargo run -q --manifest-path rust/rulmedei/Cargo.toml --example shelf samples/*.map

use std::error::Error;
use std::io::{self, Write};
use std::process::ExitCode;
use std::{env, fs};

use rulmedei::{advance, cells, compare, load, map_text, pyramid_length, shelf, tally, Compared, Refusal, PLAIN};

fn main() -> ExitCode {
    let files: Vec<String> = env::args().skip(1).collect();
    match print_shelf(&files) {
        Ok(()) => ExitCode::SUCCESS,
        Err(error) => {
            eprintln!("{error}");
            ExitCode::FAILURE
        }
    }
}

fn print_shelf(files: &[String]) -> Result<(), Box<dyn Error>> {
    let mut side = 2;
    let mut plates = Vec::new();
    for file in files {
        let (of_map, plate) = plate_of(&fs::read(file)?)?;
        if !plates.is_empty() && of_map != side {
            return Err(format!("{file}: the side is {of_map} and not {side}").into());
        }
        side = of_map;
        plates.extend(plate);
    }
    io::stdout().write_all(lines(side, &plates, files)?.as_bytes())?;
    Ok(())
}

/// The side of a map, and its serial sheet when it is finished.
fn plate_of(text: &[u8]) -> Result<(u32, Vec<u32>), Refusal> {
    let mut greys = vec![0; cells(256)];
    let side = map_text(text, &mut greys)?;
    let mut pyramid = vec![0; pyramid_length(side)];
    let mut serials = vec![0; cells(side)];
    let mut order = vec![0; cells(side)];
    let start = load(side, PLAIN, &greys, &mut pyramid, &mut serials, &mut order)?;
    advance(start, u32::MAX, &mut pyramid, &mut serials, &mut order)?;
    Ok((side, serials))
}

/// The plates in order, a line for each.
fn lines(side: u32, plates: &[u32], names: &[String]) -> Result<String, Refusal> {
    let mut list = vec![0; names.len()];
    shelf(side, names.len() as u32, plates, &mut list)?;
    let mut text = String::new();
    let mut last: Option<&[u32]> = None;
    for number in list.iter().map(|number| *number as usize) {
        let plate = &plates[number * cells(side)..][..cells(side)];
        let same = last.is_some_and(|last| compare(side, last, plate) == Ok(Compared::Same));
        let note = if same { ", the same" } else { "" };
        text += &format!("{} holes, {}{note}\n", tally(side, plate, 0, 0, 0)?, names[number]);
        last = Some(plate);
    }
    Ok(text)
}
