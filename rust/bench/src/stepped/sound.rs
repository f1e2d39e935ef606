//! The test for a sound sheet.

use super::places::{column_parts, row_part};
use crate::rules::{level_start, DOT};

/// The seven conditions of a sound sheet. The sums come last and from the finest level up: over cells that are in their
/// bounds they do not overflow.
pub fn is_sound(power: usize, dots: usize, pyramid: &[i64], serials: &[u32], order: &[u32]) -> bool {
    let cells = 1 << (2 * power);
    dots <= cells
        && is_numbered(dots, cells, serials, order)
        && burnt(cells, serials) == dots
        && is_unused(dots, cells, order)
        && is_bounded(power, &pyramid[level_start(power)..], serials)
        && is_summed(power, pyramid)
}

/// The order list names a cell for each hole, and the cell has its serial.
fn is_numbered(dots: usize, cells: usize, serials: &[u32], order: &[u32]) -> bool {
    for dot in 0..dots {
        let cell = order[dot] as usize;
        if cell >= cells || serials[cell] as usize != dot + 1 {
            return false;
        }
    }
    true
}

/// How many of the cells have a serial.
fn burnt(cells: usize, serials: &[u32]) -> usize {
    let mut burnt = 0;
    for cell in 0..cells {
        burnt += usize::from(serials[cell] != 0);
    }
    burnt
}

/// The order list names no more cells. To look at all places is quicker than to stop at one.
fn is_unused(dots: usize, cells: usize, order: &[u32]) -> bool {
    let mut used = 0;
    for dot in dots..cells {
        used |= order[dot];
    }
    used == 0
}

/// No cell asks for more than one hole, a burnt one for nothing, and none has fallen below what its burnt neighbours
/// may have taken from it. These are only counted where a cell is below 0.
fn is_bounded(power: usize, cells: &[i64], serials: &[u32]) -> bool {
    let side = 1 << power;
    let columns = column_parts(power);
    for row in 0..side {
        let first = row_part(row);
        for column in 0..side {
            let residual = cells[first + columns[column]];
            let most = if serials[(row << power) + column] == 0 { DOT } else { 0 };
            if residual > most || residual < 0 && residual < -DOT * burnt_around(power, row, column, serials) {
                return false;
            }
        }
    }
    true
}

/// How many of a cell's neighbours on the map have a serial; in a straight line where all eight are on it.
fn burnt_around(power: usize, row: usize, column: usize, serials: &[u32]) -> i64 {
    let last = (1 << power) - 1;
    let burnt = |row: usize, column: usize| i64::from(serials[(row << power) + column] != 0);
    if 0 < row && row < last && 0 < column && column < last {
        let upper = burnt(row - 1, column - 1) + burnt(row - 1, column) + burnt(row - 1, column + 1);
        let lower = burnt(row + 1, column - 1) + burnt(row + 1, column) + burnt(row + 1, column + 1);
        return upper + burnt(row, column - 1) + burnt(row, column + 1) + lower;
    }
    let mut sum = 0;
    for i in row.saturating_sub(1)..=(row + 1).min(last) {
        for j in column.saturating_sub(1)..=(column + 1).min(last) {
            sum += burnt(i, j);
        }
    }
    sum - burnt(row, column)
}

/// Whether the coarser levels add up. Here it is quicker to index each of four entries, the last one first.
fn is_summed(power: usize, pyramid: &[i64]) -> bool {
    for at in (0..level_start(power)).rev() {
        let first = 4 * at + 1;
        if pyramid[at] != pyramid[first + 3] + pyramid[first + 2] + pyramid[first + 1] + pyramid[first] {
            return false;
        }
    }
    true
}
