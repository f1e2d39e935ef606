//! The pyramid by quarters (S 2.5). Every call answers as it does on a pyramid that lies row after row, with the places
//! of its entries renamed (S 15.14); so here a pyramid is written row after row, the call is made as before, and what
//! it leaves is written by quarters. And Relay, which writes an older sheet's pyramid by quarters (S 12.2).

use crate::answers::{AdvanceAnswer, CheckpointAnswer, Checkpoints, LoadAnswer, Progress, Refusal, TwoHeadsAnswer};
use crate::by_rows;
use crate::calls::check_relay;
use crate::shape::{entry, level_start, power, pyramid_length};

/// The place of entry (row, column) of a level in a pyramid by quarters: within the level, bit 2 i of the place is bit
/// i of the column, and bit 2 i + 1 is bit i of the row.
pub fn quarter_entry(level: u32, row: usize, column: usize) -> usize {
    let mut place = 0;
    for bit in 0..level {
        place += (column >> bit & 1) << (2 * bit);
        place += (row >> bit & 1) << (2 * bit + 1);
    }
    level_start(level) + place
}

/// For each entry of a pyramid of this power: its place row after row, and its place by quarters.
fn both_places(power: u32) -> Vec<(usize, usize)> {
    let mut places = Vec::new();
    for level in 0..=power {
        let rows = 2usize.pow(level);
        for row in 0..rows {
            for column in 0..rows {
                places.push((entry(level, row, column), quarter_entry(level, row, column)));
            }
        }
    }
    places
}

/// The power of a side, if the pyramid is long enough for it; one that isn't is not renamed.
fn renamed_power(side: u32, pyramid: &[i64]) -> Option<u32> {
    power(side).ok().filter(|power| pyramid_length(*power) <= pyramid.len())
}

/// A pyramid that lies row after row, written by quarters; what lies past the needed length stays.
pub fn to_quarters(side: u32, pyramid: &[i64]) -> Vec<i64> {
    let mut written = pyramid.to_vec();
    for (by_rows, by_quarters) in renamed_power(side, pyramid).map(both_places).into_iter().flatten() {
        written[by_quarters] = pyramid[by_rows];
    }
    written
}

/// And back.
pub fn to_rows(side: u32, pyramid: &[i64]) -> Vec<i64> {
    let mut written = pyramid.to_vec();
    for (by_rows, by_quarters) in renamed_power(side, pyramid).map(both_places).into_iter().flatten() {
        written[by_rows] = pyramid[by_quarters];
    }
    written
}

/// A call made on the pyramid written row after row.
fn renamed<T>(side: u32, pyramid: &mut [i64], call: impl FnOnce(&mut [i64]) -> T) -> T {
    let mut rows = to_rows(side, pyramid);
    let answer = call(&mut rows);
    pyramid.copy_from_slice(&to_quarters(side, &rows));
    answer
}

/// Load.
pub fn load(
    side: u32,
    knit: u32,
    greys: &[u8],
    pyramid: &mut [i64],
    serials: &mut [u32],
    order: &mut [u32],
) -> LoadAnswer {
    renamed(side, pyramid, |rows| by_rows::load(side, knit, greys, rows, serials, order))
}

/// Advance.
pub fn advance(
    progress: Progress,
    budget: u32,
    pyramid: &mut [i64],
    serials: &mut [u32],
    order: &mut [u32],
) -> AdvanceAnswer {
    renamed(progress.side, pyramid, |rows| by_rows::advance(progress, budget, rows, serials, order))
}

/// The call for two heads.
pub fn two_heads(
    side: u32,
    knit: u32,
    greys: &[u8],
    pyramid: &mut [i64],
    serials: &mut [u32],
    order: &mut [u32],
) -> TwoHeadsAnswer {
    renamed(side, pyramid, |rows| by_rows::two_heads(side, knit, greys, rows, serials, order))
}

/// Restore.
pub fn restore(
    progress: Progress,
    checkpoints: Checkpoints,
    name: u32,
    greys: &[u8],
    pyramid: &mut [i64],
    serials: &mut [u32],
    order: &mut [u32],
) -> CheckpointAnswer {
    renamed(progress.side, pyramid, |rows| by_rows::restore(progress, checkpoints, name, greys, rows, serials, order))
}

/// Drill List.
pub fn drill_list(
    progress: Progress,
    pyramid: &[i64],
    serials: &[u32],
    order: &[u32],
    out: &mut [u8],
) -> Result<usize, Refusal> {
    by_rows::drill_list(progress, &to_rows(progress.side, pyramid), serials, order, out)
}

/// The renewal by itself.
pub fn renew(side: u32, row: u32, column: u32, pyramid: &mut [i64]) -> bool {
    renamed(side, pyramid, |rows| by_rows::renew(side, row, column, rows))
}

/// Whether a sheet is sound.
pub fn sound(progress: Progress, pyramid: &[i64], serials: &[u32], order: &[u32]) -> bool {
    by_rows::sound(progress, &to_rows(progress.side, pyramid), serials, order)
}

/// Writes the pyramid of an older sheet, which lies row after row, by quarters into a second one; what that one has
/// past the needed length stays. Refusals: 1, 11, 3 for either pyramid, 4, 5, the sheet being sound row after row.
pub fn relay(
    progress: Progress,
    pyramid: &[i64],
    serials: &[u32],
    order: &[u32],
    second: &mut [i64],
) -> Result<(), Refusal> {
    let power = check_relay(progress, pyramid, serials, order, second)?;
    for (by_rows, by_quarters) in both_places(power) {
        second[by_quarters] = pyramid[by_rows];
    }
    Ok(())
}
