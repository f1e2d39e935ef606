//! The laser with two heads (S 13.1 to S 13.5). The map is cut into macroblocks, and a dot touches no cell outside its
//! own; so two heads can burn at the same time.

use crate::answers::{Progress, Refusal, TwoHeadsAnswer};
use crate::calls::{check_load, start};
use crate::diffusion::{burn, descend_from, largest_of};
use crate::knit::{weights, Weights};
use crate::shape::{cell_count, entry, power, HALF_DOT};

/// The cells along a macroblock, and along one of its four blocks.
const MACROBLOCK: usize = 8;
const BLOCK: usize = 4;

/// The offsets of the rounds, by row and column, which come in turn.
const OFFSETS: [(usize, usize); 4] = [(0, 0), (0, 4), (4, 0), (4, 4)];

/// The smallest side on which each offset has a macroblock.
const SMALLEST: u32 = 16;

/// So many rounds without a dot, one after the other, end the run.
const IDLE: usize = 4;

/// A macroblock: the row and the column of its top left cell.
pub type Macroblock = (usize, usize);

/// A map that two heads work on.
struct Map {
    side: u32,
    power: u32,
    weights: &'static Weights,
}

/// The call: the buffers are filled as by Load, and the run made to its end. Refusals: 1, 14, then those of Load.
pub fn two_heads(
    side: u32,
    knit: u32,
    greys: &[u8],
    pyramid: &mut [i64],
    serials: &mut [u32],
    order: &mut [u32],
) -> TwoHeadsAnswer {
    two_heads_in(side, knit, greys, pyramid, serials, order, &mut |_| ())
}

/// The same with the macroblocks of each round worked in the order in which they are arranged.
pub fn two_heads_in(
    side: u32,
    knit: u32,
    greys: &[u8],
    pyramid: &mut [i64],
    serials: &mut [u32],
    order: &mut [u32],
    arrange: &mut dyn FnMut(&mut Vec<Macroblock>),
) -> TwoHeadsAnswer {
    match check(side, knit, greys, pyramid, serials, order) {
        Err(refusal) => {
            let progress = Progress { side: 0, dots: 0, knit: 0 };
            TwoHeadsAnswer { progress, made: 0, debt: 0, status: Err(refusal) }
        }
        Ok(map) => {
            start(map.power, &greys[..cell_count(side)], pyramid, serials, order);
            let burnt = map.run(pyramid, arrange);
            map.number(&burnt, serials, order);
            let made = burnt.len() as u32;
            TwoHeadsAnswer { progress: Progress { side, dots: made, knit }, made, debt: pyramid[0], status: Ok(()) }
        }
    }
}

/// The refusals of the call: 1, 14, 11, 2, 3, 4, 12.
fn check(side: u32, knit: u32, greys: &[u8], pyramid: &[i64], serials: &[u32], order: &[u32]) -> Result<Map, Refusal> {
    let power = power(side)?;
    if side < SMALLEST {
        return Err(Refusal::SmallSide);
    }
    check_load(side, knit, greys, pyramid, serials, order)?;
    Ok(Map { side, power, weights: weights(knit)? })
}

impl Map {
    /// Rounds to the end. Gives the cells burnt, in the order of their serials.
    fn run(&self, pyramid: &mut [i64], arrange: &mut dyn FnMut(&mut Vec<Macroblock>)) -> Vec<(usize, usize)> {
        let mut burnt = Vec::new();
        let mut idle = 0;
        for offset in OFFSETS.into_iter().cycle() {
            let made = self.round(offset, pyramid, arrange);
            idle = if made.is_empty() { idle + 1 } else { 0 };
            burnt.extend(made);
            if idle == IDLE {
                break;
            }
        }
        burnt
    }

    /// One round. Gives its cells, by the row and then the column of their macroblocks, whichever was worked first.
    fn round(
        &self,
        offset: (usize, usize),
        pyramid: &mut [i64],
        arrange: &mut dyn FnMut(&mut Vec<Macroblock>),
    ) -> Vec<(usize, usize)> {
        let mut macroblocks = self.macroblocks(offset);
        arrange(&mut macroblocks);
        let mut made = Vec::new();
        for macroblock in macroblocks {
            if let Some(cell) = self.chosen(macroblock, pyramid) {
                burn(self.side, self.power, self.weights, cell, pyramid);
                made.push((macroblock, cell));
            }
        }
        made.sort();
        made.into_iter().map(|(_, cell)| cell).collect()
    }

    /// The macroblocks from an offset on that lie wholly on the map.
    fn macroblocks(&self, (top, left): (usize, usize)) -> Vec<Macroblock> {
        let side = self.side as usize;
        let starts = |first: usize| (first..side).step_by(MACROBLOCK).filter(|start| start + MACROBLOCK <= side);
        starts(top).flat_map(|row| starts(left).map(move |column| (row, column))).collect()
    }

    /// The cell that a macroblock burns, if it does.
    fn chosen(&self, macroblock: Macroblock, pyramid: &[i64]) -> Option<(usize, usize)> {
        let due = self.sum(macroblock, pyramid) >= HALF_DOT;
        let cell = self.wanted(macroblock, pyramid);
        (due && self.allowed(macroblock, cell)).then_some(cell)
    }

    /// The sum of the residuals of its 64 cells.
    fn sum(&self, (top, left): Macroblock, pyramid: &[i64]) -> i64 {
        let row_sum =
            |row| (left..left + MACROBLOCK).map(|column| pyramid[entry(self.power, row, column)]).sum::<i64>();
        (top..top + MACROBLOCK).map(row_sum).sum()
    }

    /// The cell that it comes to: the walk begins at the block with the largest sum, and takes the first of equals
    /// there and below.
    fn wanted(&self, (top, left): Macroblock, pyramid: &[i64]) -> (usize, usize) {
        let level = self.power - 2;
        let block = largest_of(level, (top / BLOCK, left / BLOCK), false, pyramid);
        descend_from(level, block, self.power, false, pyramid)
    }

    /// Whether the cell may be burnt: it lies on no side of the macroblock's rim but such as are the map's edge.
    fn allowed(&self, (top, left): Macroblock, (row, column): (usize, usize)) -> bool {
        let last = self.side as usize - 1;
        let (bottom, right) = (top + MACROBLOCK - 1, left + MACROBLOCK - 1);
        let rim_sides = [
            (row == top, top == 0),
            (row == bottom, bottom == last),
            (column == left, left == 0),
            (column == right, right == last),
        ];
        rim_sides.iter().all(|(on_it, is_edge)| !on_it || *is_edge)
    }

    /// Writes serial sheet and order list.
    fn number(&self, burnt: &[(usize, usize)], serials: &mut [u32], order: &mut [u32]) {
        for (before, (row, column)) in burnt.iter().enumerate() {
            let cell = row * self.side as usize + column;
            serials[cell] = before as u32 + 1;
            order[before] = cell as u32;
        }
    }
}
