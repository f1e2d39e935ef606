//! Sketch Quote (S 9.4). A sketch has a pair for each cell of a map that is not known yet, the lowest grey that the
//! cell may have and the highest one (S 6.3).

use crate::answers::{Refusal, SketchQuote};
use crate::checkpoints::total;
use crate::lowering::check_greys;
use crate::map_text::{read_greys, write_greys};
use crate::measures::block_cells;
use crate::quote_page::cap;
use crate::shape::power;

/// Reads a sketch and answers its side and both totals. The lows go into one greys buffer, the highs into another, both
/// by row, and the caps of a level's blocks into the third buffer; each place past them stays. Refusals: those of the
/// grammar's reader, 7, 1, 2 for the one greys buffer or the other, 7, then 12, 13, 6 and 8.
pub fn sketch_quote(
    text: &[u8],
    level: u32,
    lows: &mut [u8],
    highs: &mut [u8],
    caps: &mut [u32],
) -> Result<SketchQuote, Refusal> {
    let (side, read) = read_greys(text, lows.len().min(highs.len()), 2)?;
    check_greys(&read)?;
    check_pairs(&read)?;
    if level > power(side)? {
        return Err(Refusal::BadBlock);
    }
    let (low, high) = parted(&read);
    let most = caps_of(side, level, &high);
    if caps.len() < most.len() {
        return Err(Refusal::ShortOutput);
    }
    lows[..low.len()].copy_from_slice(&low);
    highs[..high.len()].copy_from_slice(&high);
    caps[..most.len()].copy_from_slice(&most);
    // a total is at most one for each cell
    Ok(SketchQuote { side, least: total(&low) as u32, greatest: total(&high) as u32 })
}

/// Refusal 13, for greys of which each two are a pair.
fn check_pairs(read: &[u8]) -> Result<(), Refusal> {
    if read.chunks(2).any(|pair| pair[0] > pair[1]) {
        return Err(Refusal::FallingPair);
    }
    Ok(())
}

/// The lows and the highs of such greys.
fn parted(read: &[u8]) -> (Vec<u8>, Vec<u8>) {
    read.chunks(2).map(|pair| (pair[0], pair[1])).unzip()
}

/// The cap of each block of a level that the map has, by row, then column: the one that the quote page prints for the
/// map of the highs.
fn caps_of(side: u32, level: u32, highs: &[u8]) -> Vec<u32> {
    let blocks = 2usize.pow(level);
    let mut caps = Vec::new();
    for row in 0..blocks {
        for column in 0..blocks {
            let grey_sum = block_cells(side, level, row, column).map(|cell| u32::from(highs[cell])).sum();
            caps.push(cap(side / 2u32.pow(level), grey_sum));
        }
    }
    caps
}

/// The one text of a sketch: the side on its line, then for each row a line of its cells' pairs, in which a low, a
/// comma and a high follow each other. Written for as many highs as lows, by row.
pub fn write_sketch(side: u32, lows: &[u8], highs: &[u8]) -> Vec<u8> {
    let pairs: Vec<u8> = lows.iter().zip(highs).flat_map(|(low, high)| [*low, *high]).collect();
    write_greys(side, &pairs, 2)
}
