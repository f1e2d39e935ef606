//! One dot: the descent to its cell, its placing, and the diffusion of its error.

use crate::answers::Progress;
use crate::knit::{weights_of, Weights};
use crate::pyramid::renew_over;
use crate::shape::{entry, neighbours_in_turn, DOT, HALF_DOT};

/// The cell that the dot with this serial goes to, as row and column: from the top down. Among equal entries an odd
/// serial takes the first by row, an even one the last.
pub fn descend(power: u32, serial: u32, pyramid: &[i64]) -> (usize, usize) {
    descend_from(0, (0, 0), power, serial % 2 == 0, pyramid)
}

/// The cell that a walk from an entry of a level comes to, which goes level by level to a largest of the four entries
/// below; among equal ones to the first by row, or to the last.
pub(crate) fn descend_from(
    level: u32,
    from: (usize, usize),
    power: u32,
    last: bool,
    pyramid: &[i64],
) -> (usize, usize) {
    let (mut row, mut column) = from;
    for below in level + 1..=power {
        (row, column) = largest_of(below, (2 * row, 2 * column), last, pyramid);
    }
    (row, column)
}

/// A largest of four entries of a level, of which the first is named and the others lie beside it and below; among
/// equal ones the first by row, or the last.
pub(crate) fn largest_of(level: u32, (row, column): (usize, usize), last: bool, pyramid: &[i64]) -> (usize, usize) {
    let four = [(row, column), (row, column + 1), (row + 1, column), (row + 1, column + 1)];
    let sum = |(a, b): (usize, usize)| pyramid[entry(level, a, b)];
    let mut largest = four[0];
    for candidate in four {
        if sum(candidate) > sum(largest) || (last && sum(candidate) == sum(largest)) {
            largest = candidate;
        }
    }
    largest
}

/// All the shares of an error d, by running sums of the weights, whose sum D is above 0 (S 3.7).
pub fn shares(error: i64, weights: &[i64]) -> Vec<i64> {
    let total: i64 = weights.iter().sum();
    let floor = |up_to: i64| (error * up_to).div_euclid(total);
    let mut before = 0;
    let mut found = Vec::new();
    for weight in weights {
        let including = before + weight;
        found.push(floor(including) - floor(before));
        before = including;
    }
    found
}

/// Burn and Spread: the dot after those of the record is placed at the cell (row, column), whose residual becomes 0 and
/// whose serial is the dot's number; what the dot is worth beyond that residual is diffused by these weights.
pub fn place(
    Progress { side, dots, .. }: Progress,
    power: u32,
    weights: &Weights,
    (row, column): (usize, usize),
    pyramid: &mut [i64],
    serials: &mut [u32],
    order: &mut [u32],
) {
    let cell = row * side as usize + column;
    serials[cell] = dots + 1;
    order[dots as usize] = cell as u32;
    burn(side, power, weights, (row, column), pyramid);
}

/// What a dot at a cell does to the pyramid.
pub(crate) fn burn(side: u32, power: u32, weights: &Weights, (row, column): (usize, usize), pyramid: &mut [i64]) {
    let at = entry(power, row, column);
    let error = DOT - pyramid[at];
    pyramid[at] = 0;

    let near = neighbours_in_turn(side, row, column);
    let mut changed = vec![(row, column)];
    for (neighbour, share) in near.iter().zip(shares(error, &weights_of(weights, &near))) {
        pyramid[entry(power, neighbour.row, neighbour.column)] -= share;
        changed.push((neighbour.row, neighbour.column));
    }
    renew_over(power, pyramid, &changed);
}

/// How many dots are due (S 3.1). For the top of a sound sheet.
pub fn dots_due(top: i64) -> i64 {
    if top < HALF_DOT {
        0
    } else {
        (top + HALF_DOT) / DOT
    }
}
