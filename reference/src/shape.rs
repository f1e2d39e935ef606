//! Sides, lengths, places in the buffers, and the cells around a cell.

use crate::answers::Refusal;

/// What one hole is worth: 255 × 256 (S 2.4).
pub const DOT: i64 = 65_280;

/// From this top on a hole is due (S 3.1).
pub const HALF_DOT: i64 = 32_640;

/// The sides of a map (S 2.1).
pub const SIDES: [u32; 8] = [2, 4, 8, 16, 32, 64, 128, 256];

/// The power r of a side (S 2.1). Refuses one that is none of the eight.
pub fn power(side: u32) -> Result<u32, Refusal> {
    match SIDES.iter().position(|known| *known == side) {
        Some(place) => Ok(place as u32 + 1),
        None => Err(Refusal::BadSide),
    }
}

/// The cells of a map of one of the eight sides.
pub fn cell_count(side: u32) -> usize {
    side as usize * side as usize
}

/// Where a level begins, row after row (S 2.6). For k up to 9.
pub fn level_start(level: u32) -> usize {
    (4usize.pow(level) - 1) / 3
}

/// How long a pyramid has to be: 5 places at side 2, 87,381 at side 256 (S 2.5).
pub fn pyramid_length(power: u32) -> usize {
    level_start(power + 1)
}

/// The place of entry (row, column) of a level in the pyramid, row after row (S 2.6).
pub fn entry(level: u32, row: usize, column: usize) -> usize {
    level_start(level) + row * 2usize.pow(level) + column
}

/// A neighbour: one of the up to eight cells around a cell that are on the map, with its place in the three by three,
/// by row and column.
#[derive(Debug, Clone, Copy, PartialEq, Eq)]
pub struct Neighbour {
    pub row: usize,
    pub column: usize,
    pub place: (usize, usize),
}

/// The neighbours of a cell by row, then column.
pub fn neighbours(side: u32, row: usize, column: usize) -> Vec<Neighbour> {
    let on_map = |place: usize| place >= 1 && place <= side as usize;
    let mut found = Vec::new();
    for down in 0..3 {
        for right in 0..3 {
            // both counted from 1 here, so that the row above row 0 is 0 and not below it
            let (near_row, near_column) = (row + down, column + right);
            let place = (down, right);
            if place != (1, 1) && on_map(near_row) && on_map(near_column) {
                found.push(Neighbour { row: near_row - 1, column: near_column - 1, place });
            }
        }
    }
    found
}

/// The neighbours in the order in which an error is diffused: first those at the cell's corners, then those that share
/// a side with it; within either, by row, then column.
pub fn neighbours_in_turn(side: u32, row: usize, column: usize) -> Vec<Neighbour> {
    let shares_a_side = |neighbour: &Neighbour| neighbour.row == row || neighbour.column == column;
    let (straight, diagonal): (Vec<_>, Vec<_>) = neighbours(side, row, column).into_iter().partition(shares_a_side);
    [diagonal, straight].concat()
}
