//! The program `sketch`, as a function from its input to what it prints.

use crate::answers::{Refusal, SketchQuote};
use crate::map_text::cut_line;
use crate::plate::GREYS_ROOM;
use crate::quote::level;
use crate::sketch_quote::sketch_quote;

/// Reads a line with the level and then a sketch, and prints what Sketch Quote answers: a line with both totals, then
/// for each block of the level a line with its row, its column and its cap; or, where it is refused, the line that
/// `plate` has for that.
pub fn sketch(input: &[u8]) -> Vec<u8> {
    match quote_of(input) {
        Ok(text) => text.into_bytes(),
        Err(refusal) => format!("refused,{}\n", refusal.number()).into_bytes(),
    }
}

/// The same, with the refusal kept apart: 7 for the first line, then those of Sketch Quote. No level of side 32 has
/// more blocks than that side has cells.
fn quote_of(input: &[u8]) -> Result<String, Refusal> {
    let (line, text) = cut_line(input).ok_or(Refusal::BadText)?;
    let level = level(line).ok_or(Refusal::BadText)?;
    let (mut lows, mut highs, mut caps) = ([0; GREYS_ROOM], [0; GREYS_ROOM], [0; GREYS_ROOM]);
    let quote = sketch_quote(text, level, &mut lows, &mut highs, &mut caps)?;
    Ok(totals_line(quote) + &cap_lines(level, &caps))
}

/// The least and the greatest total, each right aligned in five columns, with a blank between.
fn totals_line(quote: SketchQuote) -> String {
    format!("{:>5} {:>5}\n", quote.least, quote.greatest)
}

/// Row and column in three columns each and the cap in five, likewise, a line for each block.
fn cap_lines(level: u32, caps: &[u32]) -> String {
    let blocks = 2usize.pow(level);
    let line = |block: usize| format!("{:>3} {:>3} {:>5}\n", block / blocks, block % blocks, caps[block]);
    (0..blocks * blocks).map(line).collect()
}
