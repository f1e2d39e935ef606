//! What `plain` shared with the Rust of an older layout, in a module of its own as it was then: with all in one module
//! the compiler makes other code, and `plain` takes a twentieth longer.

use crate::rules::{HIGHEST, IN_TURN};

/// None of the greys of so many cells is above 240.
pub fn low(cells: usize, greys: &[u8]) -> bool {
    (0..cells).all(|cell| greys[cell] <= HIGHEST)
}

/// The neighbours on the map in the order of the spread, with their places in the three by three around the cell.
pub fn around(power: usize, row: usize, column: usize) -> impl Iterator<Item = (usize, usize)> {
    let side = 1 << power;
    IN_TURN.into_iter().filter_map(move |n| {
        let (down, right) = (row + n / 3, column + n % 3);
        let inside = down >= 1 && down <= side && right >= 1 && right <= side;
        inside.then(|| (((down - 1) << power) + right - 1, n))
    })
}

/// The order list names cells by serial.
pub fn numbered(dots: usize, cells: usize, serials: &[u32], order: &[u32]) -> bool {
    (0..dots).all(|j| (order[j] as usize) < cells && serials[order[j] as usize] as usize == j + 1)
}
