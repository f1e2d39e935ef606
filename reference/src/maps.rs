//! The named maps whose runs are stored.

use crate::lowering::{lowered, HIGHEST};
use crate::sample::fill;

/// The names of the maps, in the order of the stored files.
pub const NAMES: [&str; 13] = [
    "flat-0",
    "flat-1",
    "flat-127",
    "flat-128",
    "flat-129",
    "flat-239",
    "flat-240",
    "gradient-columns",
    "gradient-diagonal",
    "hot-cell",
    "hot-rim",
    "checkerboard",
    "random",
];

/// The greys of a named map of one of the eight sides, by row (S 2.2). None is above 240, so that Load takes each map.
/// A name that isn't in the list has no greys.
pub fn named(name: &str, side: u32) -> Vec<u8> {
    let (last, most) = (side - 1, u32::from(HIGHEST));
    let rim = |place: u32| place == 0 || place == last;
    match name {
        "flat-0" => by_cell(side, |_, _| 0),
        "flat-1" => by_cell(side, |_, _| 1),
        "flat-127" => by_cell(side, |_, _| 127),
        "flat-128" => by_cell(side, |_, _| 128),
        "flat-129" => by_cell(side, |_, _| 129),
        "flat-239" => by_cell(side, |_, _| most - 1),
        "flat-240" => by_cell(side, |_, _| most),
        "gradient-columns" => by_cell(side, |_, column| column * most / last),
        "gradient-diagonal" => by_cell(side, |row, column| (row + column) * most / (2 * last)),
        "hot-cell" => by_cell(side, |row, column| if (row, column) == (side / 2, side / 2 - 1) { most } else { 0 }),
        "hot-rim" => by_cell(side, |row, column| if rim(row) || rim(column) { most } else { 16 }),
        "checkerboard" => by_cell(side, |row, column| if (row + column) % 2 == 1 { most } else { 0 }),
        "random" => sampled(1, (side * side) as usize),
        _ => Vec::new(),
    }
}

/// The greys that a rule gives to each row and column.
fn by_cell(side: u32, rule: impl Fn(u32, u32) -> u32) -> Vec<u8> {
    let mut greys = Vec::new();
    for row in 0..side {
        for column in 0..side {
            greys.push(rule(row, column) as u8);
        }
    }
    greys
}

/// A sample as it is loaded: lowered.
pub fn sampled(start: u32, count: usize) -> Vec<u8> {
    lowered(&generated(start, count))
}

/// Greys of the generator of samples, as many as are asked for; they go up to 255.
pub fn generated(start: u32, count: usize) -> Vec<u8> {
    let mut greys = vec![0; count];
    fill(start, &mut greys);
    greys
}
