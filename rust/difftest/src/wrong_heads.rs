//! Two Heads cell by cell, with one rule changed: a test that found no difference between these and the right rules
//! would be worth little, so that each has to be told from them.

use reference::{neighbours_in_turn, shares, weights, weights_of, Weights, DOT, HALF_DOT};

use crate::plate_kinds::Kind;

/// A side of a macroblock's rim: whether the cell is on it, and whether it is an edge of the map.
type RimSide = (bool, bool);

/// What can be changed.
struct Rules {
    offsets: [(usize, usize); 4],
    half: i64,
    may_burn: fn([RimSide; 4]) -> bool,
    last_block: bool,
    last_inside: bool,
    turns: bool,
    idle: usize,
    by_column: bool,
}

const RIGHT: Rules = Rules {
    offsets: [(0, 0), (0, 4), (4, 0), (4, 4)],
    half: HALF_DOT,
    may_burn: |rim| rim.iter().all(|(on, edge)| !on || *edge),
    last_block: false,
    last_inside: false,
    turns: false,
    idle: 4,
    by_column: false,
};

/// The wrong rules.
const WRONG: [(Kind, Rules); 11] = [
    ("two_heads: not the same with rim cells burnt", Rules { may_burn: |_| true, ..RIGHT }),
    (
        "two_heads: not the same with edge cells not burnt",
        Rules { may_burn: |rim| rim.iter().all(|(on, _)| !on), ..RIGHT },
    ),
    (
        "two_heads: not the same with one edge for two sides of the rim",
        Rules { may_burn: |rim| rim.iter().all(|(on, _)| !on) || rim.contains(&(true, true)), ..RIGHT },
    ),
    ("two_heads: not the same with (4, 0) before (0, 4)", Rules { offsets: [(0, 0), (4, 0), (0, 4), (4, 4)], ..RIGHT }),
    ("two_heads: not the same with 32,641", Rules { half: HALF_DOT + 1, ..RIGHT }),
    ("two_heads: not the same with 32,639", Rules { half: HALF_DOT - 1, ..RIGHT }),
    ("two_heads: not the same with the last of equal blocks", Rules { last_block: true, ..RIGHT }),
    ("two_heads: not the same with the last of equals in a block", Rules { last_inside: true, ..RIGHT }),
    ("two_heads: not the same with turns among equals", Rules { turns: true, ..RIGHT }),
    ("two_heads: not the same with three rounds to end", Rules { idle: 3, ..RIGHT }),
    ("two_heads: not the same with serials by column", Rules { by_column: true, ..RIGHT }),
];

/// What each wrong rule is called.
pub const KINDS: [Kind; 11] = {
    let mut kinds = [""; 11];
    let mut place = 0;
    while place < kinds.len() {
        kinds[place] = WRONG[place].0;
        place += 1;
    }
    kinds
};

/// The wrong rules by which the cells burnt would be others, or in another order; none if the right ones do not give
/// this order either.
pub fn told_apart(side: u32, knit: u32, greys: &[u8], order: &[u32]) -> Vec<Kind> {
    let Ok(weights) = weights(knit) else {
        return Vec::new();
    };
    let differs = |rules: &Rules| Map { side, weights, rules }.run(greys) != order;
    if differs(&RIGHT) {
        return Vec::new();
    }
    WRONG.iter().filter(|(_, rules)| differs(rules)).map(|(kind, _)| *kind).collect()
}

/// A map under rules.
struct Map<'a> {
    side: u32,
    weights: &'a Weights,
    rules: &'a Rules,
}

impl Map<'_> {
    /// The cells in the order of their dots.
    fn run(&self, greys: &[u8]) -> Vec<u32> {
        let mut owed: Vec<i64> = greys.iter().map(|grey| 256 * i64::from(*grey)).collect();
        let (mut order, mut idle) = (Vec::new(), 0);
        for offset in self.rules.offsets.into_iter().cycle() {
            let before = order.len();
            self.round(offset, &mut owed, &mut order);
            idle = if order.len() == before { idle + 1 } else { 0 };
            if idle == self.rules.idle {
                break;
            }
        }
        order
    }

    fn round(&self, (top, left): (usize, usize), owed: &mut [i64], order: &mut Vec<u32>) {
        let [down, across] = [top, left].map(|first| (self.side as usize - first) / 8);
        for number in 0..down * across {
            let (i, j) =
                if self.rules.by_column { (number % down, number / down) } else { (number / across, number % across) };
            let start = (top + 8 * i, left + 8 * j);
            let last = self.rules.turns && order.len() % 2 == 1;
            if let Some(cell) = self.chosen(start, last, owed) {
                self.burn(cell, owed);
                order.push(cell.0 as u32 * self.side + cell.1 as u32);
            }
        }
    }

    /// The cell that a macroblock burns; its equals are told by the rules, or it takes the last.
    fn chosen(&self, start: (usize, usize), last: bool, owed: &[i64]) -> Option<(usize, usize)> {
        let block = self.largest(start, 4, last || self.rules.last_block, owed);
        let four = self.largest(block, 2, last || self.rules.last_inside, owed);
        let (row, column) = self.largest(four, 1, last || self.rules.last_inside, owed);
        let rim_sides =
            |first: usize, at: usize| [(at == first, first == 0), (at == first + 7, first + 8 == self.side as usize)];
        let ([a, b], [c, d]) = (rim_sides(start.0, row), rim_sides(start.1, column));
        let burns = self.sum(start, 8, owed) >= self.rules.half && (self.rules.may_burn)([a, b, c, d]);
        burns.then_some((row, column))
    }

    /// The quarter, so many cells wide, with the largest sum.
    fn largest(&self, (row, column): (usize, usize), wide: usize, last: bool, owed: &[i64]) -> (usize, usize) {
        let mut best = (row, column);
        for quarter in [(row, column + wide), (row + wide, column), (row + wide, column + wide)] {
            let [new, old] = [quarter, best].map(|start| self.sum(start, wide, owed));
            if new > old || (last && new == old) {
                best = quarter;
            }
        }
        best
    }

    fn sum(&self, (row, column): (usize, usize), wide: usize, owed: &[i64]) -> i64 {
        let first = |down: usize| (row + down) * self.side as usize + column;
        (0..wide).map(|down| owed[first(down)..first(down) + wide].iter().sum::<i64>()).sum()
    }

    fn burn(&self, (row, column): (usize, usize), owed: &mut [i64]) {
        let cell = |row: usize, column: usize| row * self.side as usize + column;
        let error = DOT - std::mem::take(&mut owed[cell(row, column)]);
        let near = neighbours_in_turn(self.side, row, column);
        for (neighbour, share) in near.iter().zip(shares(error, &weights_of(self.weights, &near))) {
            owed[cell(neighbour.row, neighbour.column)] -= share;
        }
    }
}
