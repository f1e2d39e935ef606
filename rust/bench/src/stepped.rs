//! The team's own implementation in Rust with every step that the library has taken with request 14: a cell's place is
//! a part that its row gives and a part that its column gives, found once a hole, or once a row and once a column
//! (`places`); the largest of four is found in pairs (`walk`); inside the map the spread has constant weights
//! (`spread`); the renewal carries one sum up from where all sums to be made are one (`renewal`); and the test goes
//! through the cells once for both bounds, and counts burnt neighbours only for a cell below 0 (`sound`). Of several
//! ways to write a step the quickest stands here, also where the library has another; what the notes call quicker was
//! measured. Plain indexing, so that every access is bounds-checked, and no unsafe code.

#![forbid(unsafe_code)]
// the loops count and index on purpose: an iterator would need no test
#![allow(clippy::needless_range_loop)]

mod load;
mod places;
mod renewal;
mod sound;
mod spread;
mod walk;

pub use load::load;

use crate::buffers::Buffers;
use crate::rules::{level_start, DOT, HALF_DOT};
use places::Around;

/// Advance: the test of the sheet, then the holes that are due, at most as many as the budget. Returns the holes that
/// there are then; none for a sheet that isn't sound.
pub fn advance(power: usize, knit: usize, dots: u32, budget: u32, buffers: &mut Buffers) -> Option<u32> {
    let Buffers { pyramid, serials, order } = buffers;
    if !sound::is_sound(power, dots as usize, pyramid, serials, order) {
        return None;
    }
    let mut after = dots;
    while after - dots < budget && pyramid[0] >= HALF_DOT {
        let cell = burn(power, knit, after, pyramid);
        serials[cell] = after + 1;
        order[after as usize] = cell as u32;
        after += 1;
    }
    Some(after)
}

/// Burns a hole where so many are before it; the number of its cell.
fn burn(power: usize, knit: usize, before: u32, pyramid: &mut [i64]) -> usize {
    let (row, column, at) =
        if before % 2 == 1 { walk::descend::<true>(power, pyramid) } else { walk::descend::<false>(power, pyramid) };
    let around = Around::cell(power, row, column);
    let lacking = DOT - pyramid[at];
    pyramid[at] = 0;
    spread::spread(knit, &around, lacking, &mut pyramid[level_start(power)..]);
    renewal::renew(power, &around, pyramid);
    (row << power) + column
}
