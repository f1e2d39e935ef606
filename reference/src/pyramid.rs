//! The coarser sums of the pyramid.

use crate::shape::entry;

/// One entry made the sum of the four below it (S 2.4).
fn renew_entry(pyramid: &mut [i64], level: u32, row: usize, column: usize) {
    pyramid[entry(level, row, column)] = pyramid[entry(level + 1, 2 * row, 2 * column)]
        + pyramid[entry(level + 1, 2 * row, 2 * column + 1)]
        + pyramid[entry(level + 1, 2 * row + 1, 2 * column)]
        + pyramid[entry(level + 1, 2 * row + 1, 2 * column + 1)];
}

/// All sums above the cells made anew, from the finest level of them up to the top (S 3.8).
pub fn renew_all(power: u32, pyramid: &mut [i64]) {
    for level in (0..power).rev() {
        for row in 0..2usize.pow(level) {
            for column in 0..2usize.pow(level) {
                renew_entry(pyramid, level, row, column);
            }
        }
    }
}

/// Only the sums over these cells made anew: in a right pyramid the others hold already (S 3.8).
pub fn renew_over(power: u32, pyramid: &mut [i64], changed: &[(usize, usize)]) {
    for level in (0..power).rev() {
        let cells_wide = 2usize.pow(power - level);
        for (row, column) in changed {
            renew_entry(pyramid, level, row / cells_wide, column / cells_wide);
        }
    }
}
