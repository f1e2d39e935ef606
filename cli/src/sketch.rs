//! `rulmedei sketch`: the least and the greatest number of holes of a map that is not drawn yet, and the caps.

use std::fmt::Write;

use rulmedei::{cells, sketch_quote};

use crate::arguments::{Arguments, Takes};
use crate::failure::Failure;
use crate::{files, maps, places};

pub const TAKES: Takes = Takes { valued: &["-o", "--level"], plain: &[], files: (0, 1) };

pub fn run(arguments: &Arguments) -> Result<Vec<u8>, Failure> {
    let asked = arguments.number("--level")?;
    let input = files::read(arguments.files.first())?;
    let (mut lows, mut highs, mut caps) = (vec![0; cells(256)], vec![0; cells(256)], vec![0; cells(256)]);
    let level = asked.unwrap_or(default_level(&input.bytes));
    let quote =
        sketch_quote(&input.bytes, level, &mut lows, &mut highs, &mut caps).map_err(
            |refusal| match places::in_sketch(&input.bytes, refusal) {
                Some(place) => maps::placed(&input, &place, refusal),
                None => Failure::by_engine(&input.name, refusal),
            },
        )?;
    let mut text = format!("{:5} {:5}\n", quote.least, quote.greatest);
    let squares = 1 << level;
    for (at, cap) in caps.iter().take(squares * squares).enumerate() {
        // writing to a string never fails
        let _ = writeln!(text, "{:3} {:3} {cap:5}", at / squares, at % squares);
    }
    Ok(text.into_bytes())
}

/// 2, or for a sketch of side 2 its last level.
fn default_level(text: &[u8]) -> u32 {
    if text.starts_with(b"2\n") {
        1
    } else {
        2
    }
}
