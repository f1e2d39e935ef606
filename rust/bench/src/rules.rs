//! The numbers of the rules, and where a level of the pyramid begins: for both Rusts.

#![forbid(unsafe_code)]

/// What a hole is worth.
pub const DOT: i64 = 65_280;

/// A hole is due while the map asks for this much.
pub const HALF_DOT: i64 = 32_640;

/// The highest grey that Load takes.
pub const HIGHEST: u8 = 240;

/// What the nine cells around a hole weigh, by row then column: on plain cloth, and on ribbed.
pub const WEIGHTS: [[i64; 9]; 2] = [[1, 2, 1, 2, 0, 2, 1, 2, 1], [0, 1, 0, 1, 0, 1, 0, 1, 0]];

/// The numbers of the neighbours in the order of the spread: those at the corners, then up, left, right, down.
pub const IN_TURN: [usize; 8] = [0, 2, 6, 8, 1, 3, 5, 7];

/// Where a level begins in the pyramid: behind the 4^0 + 4^1 + .. entries of those before it.
pub fn level_start(level: usize) -> usize {
    ((1 << (2 * level)) - 1) / 3
}
