//! Quote Page (S 8.4).

use crate::answers::Refusal;
use crate::measures::block_cells;
use crate::shape::{cell_count, power};

/// A line for each block of the level, by row then column. Gives the length; bytes past it stay. The checks are 1, 2,
/// 4, 6 and 8, in this order (S 5.2).
pub fn quote_page(side: u32, greys: &[u8], serials: &[u32], level: u32, out: &mut [u8]) -> Result<usize, Refusal> {
    let power = power(side)?;
    if greys.len() < cell_count(side) {
        return Err(Refusal::ShortGreys);
    }
    if serials.len() < cell_count(side) {
        return Err(Refusal::ShortSheet);
    }
    if level > power {
        return Err(Refusal::BadBlock);
    }
    let page = page_text(side, greys, serials, level).into_bytes();
    if out.len() < page.len() {
        return Err(Refusal::ShortOutput);
    }
    out[..page.len()].copy_from_slice(&page);
    Ok(page.len())
}

/// The page itself, for a level that the map has.
fn page_text(side: u32, greys: &[u8], serials: &[u32], level: u32) -> String {
    let mut text = String::new();
    for row in 0..2usize.pow(level) {
        for column in 0..2usize.pow(level) {
            let cells = || block_cells(side, level, row, column);
            let grey_sum = cells().map(|cell| u32::from(greys[cell])).sum();
            let dots = cells().filter(|cell| serials[*cell] != 0).count();
            let cap = cap(side / 2u32.pow(level), grey_sum);
            text.push_str(&line(row, column, grey_sum, dots, cap));
        }
    }
    text
}

/// Row, column, grey sum, holes and cap, right aligned in 3, 3, 8, 5 and 5 places with a space between, and byte 10: 29
/// bytes (S 8.4, S 6.5).
fn line(row: usize, column: usize, grey_sum: u32, dots: usize, cap: u32) -> String {
    format!("{row:>3} {column:>3} {grey_sum:>8} {dots:>5} {cap:>5}\n")
}

/// The cap of a block `wide` cells wide (S 8.3).
pub(crate) fn cap(wide: u32, grey_sum: u32) -> u32 {
    (wide * wide).min((3 * grey_sum + 764 + 1_020 * wide) / 765)
}
