//! Tally and Levels.

use crate::answers::Refusal;
use crate::shape::{cell_count, power};

/// Tally: how many cells of a block have a serial other than 0 (S 8.1). The block (level, row, column) is the aligned
/// square under that entry (S 2.10).
pub fn tally(side: u32, serials: &[u32], level: u32, row: u32, column: u32) -> Result<u32, Refusal> {
    let power = power(side)?;
    if serials.len() < cell_count(side) {
        return Err(Refusal::ShortSheet);
    }
    if level > power || row >= 2u32.pow(level) || column >= 2u32.pow(level) {
        return Err(Refusal::BadBlock);
    }
    let mut dots = 0;
    for cell in block_cells(side, level, row as usize, column as usize) {
        if serials[cell] != 0 {
            dots += 1;
        }
    }
    Ok(dots)
}

/// Levels: for each level the squares of its blocks' summed errors, added up; nine sums, of which those past r are 0
/// (S 8.2).
pub fn levels(side: u32, greys: &[u8], serials: &[u32]) -> Result<[u64; 9], Refusal> {
    let power = power(side)?;
    if greys.len() < cell_count(side) {
        return Err(Refusal::ShortGreys);
    }
    if serials.len() < cell_count(side) {
        return Err(Refusal::ShortSheet);
    }
    let mut sums = [0; 9];
    for level in 0..=power {
        for row in 0..2usize.pow(level) {
            for column in 0..2usize.pow(level) {
                let cells = block_cells(side, level, row, column);
                let error: i64 = cells.map(|cell| cell_error(greys[cell], serials[cell])).sum();
                sums[level as usize] += error.unsigned_abs() * error.unsigned_abs();
            }
        }
    }
    Ok(sums)
}

/// The error of a cell: its grey, with 255 off where it has a dot (S 8.2).
fn cell_error(grey: u8, serial: u32) -> i64 {
    i64::from(grey) - if serial != 0 { 255 } else { 0 }
}

/// The numbers (row × N + column) of the cells of a block.
pub(crate) fn block_cells(side: u32, level: u32, row: usize, column: usize) -> impl Iterator<Item = usize> {
    let side = side as usize;
    let wide = side / 2usize.pow(level);
    (row * wide..(row + 1) * wide).flat_map(move |i| (column * wide..(column + 1) * wide).map(move |j| i * side + j))
}
