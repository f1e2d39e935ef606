//! The team's own implementation in Rust as it stood before request 14: its functions and their way of working are as
//! they were then, so that figures from before and after can be compared. The pyramid lies by quarters: the four
//! entries below the one at place i are at the places 4 i + 1 to 4 i + 4, and a cell's place is found in a table of 32
//! by 32. Load tests the greys, fills the pyramid and makes all sums; Advance tests the sheet, then descends, burns,
//! spreads, and renews the sums over the burnt cell and its neighbours, each once. Plain indexing, so every access is
//! bounds-checked, and no unsafe code.

#![forbid(unsafe_code)]

mod near;

use crate::rules::{level_start, DOT, HALF_DOT, WEIGHTS};
use near::{around, low, numbered};

/// The places of 32 by 32 entries, by row then column.
static PLACES: [u16; 1024] = small_places();

const fn small_places() -> [u16; 1024] {
    let mut places = [0; 1024];
    let mut cell = 0;
    while cell < 1024 {
        let (row, column) = (cell / 32, cell % 32);
        let mut bit = 0;
        while bit < 5 {
            places[cell] += ((column >> bit & 1) << (2 * bit)) as u16;
            places[cell] += ((row >> bit & 1) << (2 * bit + 1)) as u16;
            bit += 1;
        }
        cell += 1;
    }
    places
}

/// The place of an entry within its level.
fn place(row: usize, column: usize) -> usize {
    let small = |row: usize, column: usize| PLACES[row * 32 + column] as usize;
    1024 * small(row / 32, column / 32) + small(row % 32, column % 32)
}

/// Load: none for a map with a grey above 240.
pub fn load(power: usize, greys: &[u8], pyramid: &mut [i64], serials: &mut [u32], order: &mut [u32]) -> Option<()> {
    let side = 1 << power;
    let cells = level_start(power);
    if !low(side * side, greys) {
        return None;
    }
    for cell in 0..side * side {
        pyramid[cells + place(cell / side, cell % side)] = 256 * i64::from(greys[cell]);
        serials[cell] = 0;
        order[cell] = 0;
    }
    for at in (0..cells).rev() {
        pyramid[at] = four(at, pyramid);
    }
    Some(())
}

/// The sum of the four entries below the one at a place of the pyramid.
fn four(at: usize, pyramid: &[i64]) -> i64 {
    let below = &pyramid[4 * at + 1..4 * at + 5];
    below[0] + below[1] + below[2] + below[3]
}

/// The coarser sums over a cell and its neighbours on the map, each once, from the finest level up.
fn renew_over(power: usize, row: usize, column: usize, pyramid: &mut [i64]) {
    let last = (1 << power) - 1;
    let (top, low) = (row.saturating_sub(1), (row + 1).min(last));
    let (left, right) = (column.saturating_sub(1), (column + 1).min(last));
    let corner = |row, column| level_start(power) + place(row, column);
    let (mut nw, mut ne) = (corner(top, left), corner(top, right));
    let (mut sw, mut se) = (corner(low, left), corner(low, right));
    for _ in 0..power {
        (nw, ne, sw, se) = ((nw - 1) / 4, (ne - 1) / 4, (sw - 1) / 4, (se - 1) / 4);
        pyramid[nw] = four(nw, pyramid);
        if ne != nw {
            pyramid[ne] = four(ne, pyramid);
        }
        if sw != nw {
            pyramid[sw] = four(sw, pyramid);
            if se != sw {
                pyramid[se] = four(se, pyramid);
            }
        }
    }
}

/// The test of a sheet, then the holes. Returns the holes on the sheet afterwards, or none for a sheet that isn't
/// sound.
pub fn advance(
    power: usize,
    knit: usize,
    dots: u32,
    budget: u32,
    pyramid: &mut [i64],
    serials: &mut [u32],
    order: &mut [u32],
) -> Option<u32> {
    if !sound(power, dots, pyramid, serials, order) {
        return None;
    }
    let mut made = 0;
    while made < budget && pyramid[0] >= HALF_DOT {
        place_dot(power, &WEIGHTS[knit], dots + made, pyramid, serials, order);
        made += 1;
    }
    Some(dots + made)
}

/// One hole.
fn place_dot(power: usize, weights: &[i64; 9], dots: u32, pyramid: &mut [i64], serials: &mut [u32], order: &mut [u32]) {
    let (row, column, at) = descend(power, i64::from(dots % 2), pyramid);
    let cell = (row << power) + column;
    let lacking = DOT - pyramid[at];
    pyramid[at] = 0;
    diffuse(power, weights, row, column, lacking, &mut pyramid[level_start(power)..]);
    serials[cell] = dots + 1;
    order[dots as usize] = cell as u32;
    renew_over(power, row, column, pyramid);
}

/// From the top to a largest of four, down to a cell: with tie 0 the first of equals, with tie 1 the last. Its row, its
/// column and its place.
fn descend(power: usize, tie: i64, pyramid: &[i64]) -> (usize, usize, usize) {
    let (mut row, mut column, mut at) = (0, 0, 0);
    for _ in 0..power {
        let below = &pyramid[4 * at + 1..4 * at + 5];
        let mut best = 0;
        for candidate in 1..4 {
            if below[best] < below[candidate] + tie {
                best = candidate;
            }
        }
        (row, column, at) = (2 * row + best / 2, 2 * column + best % 2, 4 * at + 1 + best);
    }
    (row, column, at)
}

/// The shares of the neighbours on the map, by running floors.
fn diffuse(power: usize, weights: &[i64; 9], row: usize, column: usize, lacking: i64, cells: &mut [i64]) {
    let total: i64 = around(power, row, column).map(|(_, near)| weights[near]).sum();
    let side = 1 << power;
    let (mut weighed, mut given) = (0, 0);
    for (cell, near) in around(power, row, column) {
        weighed += weights[near];
        let until = lacking * weighed / total;
        cells[place(cell / side, cell % side)] -= until - given;
        given = until;
    }
}

/// The seven conditions of a sound sheet.
fn sound(power: usize, dots: u32, pyramid: &[i64], serials: &[u32], order: &[u32]) -> bool {
    let cells = 1 << (2 * power);
    dots as usize <= cells
        && numbered(dots as usize, cells, serials, order)
        && serials[..cells].iter().filter(|serial| **serial != 0).count() == dots as usize
        && order[dots as usize..cells].iter().all(|cell| *cell == 0)
        && bounded(power, &pyramid[level_start(power)..], serials)
        && (0..level_start(power)).all(|at| pyramid[at] == four(at, pyramid))
}

/// No cell owes more than one hole, a burnt one nothing; none has fallen below what its burnt neighbours took.
fn bounded(power: usize, cells: &[i64], serials: &[u32]) -> bool {
    let side: usize = 1 << power;
    (0..side * side).all(|cell| {
        let most = if serials[cell] == 0 { DOT } else { 0 };
        let burnt = around(power, cell >> power, cell & (side - 1)).filter(|(near, _)| serials[*near] != 0).count();
        let residual = cells[place(cell / side, cell % side)];
        residual <= most && residual >= -DOT * burnt as i64
    })
}
