//! Load, with its test of the greys.

use super::places::{column_parts, four, row_part};
use crate::buffers::Buffers;
use crate::rules::{level_start, HIGHEST};

/// Load: the pyramid from the greys, the two others cleared. None for a map with a grey above 240.
pub fn load(power: usize, greys: &[u8], buffers: &mut Buffers) -> Option<()> {
    let side = 1 << power;
    if !is_low(side * side, greys) {
        return None;
    }
    fill(power, greys, &mut buffers.pyramid);
    clear(side * side, &mut buffers.serials);
    clear(side * side, &mut buffers.order);
    Some(())
}

/// Whether none of the greys of so many cells is above 240. To look at all of them is quicker than to stop at one.
fn is_low(cells: usize, greys: &[u8]) -> bool {
    let mut high = false;
    for cell in 0..cells {
        high |= greys[cell] > HIGHEST;
    }
    !high
}

/// The cells, row by row, and then all sums over them, from the finest level up.
fn fill(power: usize, greys: &[u8], pyramid: &mut [i64]) {
    let side = 1 << power;
    let start = level_start(power);
    let columns = column_parts(power);
    for row in 0..side {
        let first = start + row_part(row);
        for column in 0..side {
            pyramid[first + columns[column]] = 256 * i64::from(greys[(row << power) + column]);
        }
    }
    for at in (0..start).rev() {
        pyramid[at] = four(at, pyramid);
    }
}

fn clear(cells: usize, numbers: &mut [u32]) {
    for cell in 0..cells {
        numbers[cell] = 0;
    }
}
