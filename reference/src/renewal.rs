//! The renewal by itself (S 12.3).

use crate::pyramid::renew_over;
use crate::shape::{neighbours, power, pyramid_length};

/// the largest size of an entry
const MOST: i64 = 1 << 40;

/// Makes every sum over the cell (row, column) or one of its neighbours anew, level by level up to the top; no other
/// entry changes, also where it is wrong (S 12.3). False where a renewal is not done; then nothing changes.
pub fn renew(side: u32, row: u32, column: u32, pyramid: &mut [i64]) -> bool {
    let Some(power) = promised(side, row, column, pyramid) else {
        return false;
    };
    let (row, column) = (row as usize, column as usize);
    let mut cells = vec![(row, column)];
    for neighbour in neighbours(side, row, column) {
        cells.push((neighbour.row, neighbour.column));
    }
    renew_over(power, pyramid, &cells);
    true
}

/// The power, if the request promises something: one of the eight sides, a cell of the map, and a pyramid whose needed
/// part is there with every entry from −2^40 to 2^40.
fn promised(side: u32, row: u32, column: u32, pyramid: &[i64]) -> Option<u32> {
    let power = power(side).ok()?;
    let needed = pyramid.get(..pyramid_length(power))?;
    let on_map = row < side && column < side;
    let in_range = needed.iter().all(|entry| (-MOST..=MOST).contains(entry));
    (on_map && in_range).then_some(power)
}
