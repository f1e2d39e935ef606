//! The knit of the cloth (S 2.8, S 3.5). It says how the error of a dot is divided, and nothing else.

use crate::answers::Refusal;
use crate::shape::Neighbour;

/// The knits, as the record has them.
pub const PLAIN: u32 = 0;
pub const RIBBED: u32 = 1;

/// What the cells around a cell weigh, by row and column. The middle is the cell itself and no neighbour.
pub type Weights = [[i64; 3]; 3];

/// One table for each knit. Plain: those above, below and beside the cell weigh 2, those at its corners 1. Ribbed: the
/// former weigh 1, and the latter nothing.
const WEIGHTS: [Weights; 2] = [[[1, 2, 1], [2, 0, 2], [1, 2, 1]], [[0, 1, 0], [1, 0, 1], [0, 1, 0]]];

/// The weights of a knit. Refuses a number that is none.
pub fn weights(knit: u32) -> Result<&'static Weights, Refusal> {
    WEIGHTS.get(knit as usize).ok_or(Refusal::UnknownKnit)
}

/// What each of these neighbours weighs.
pub fn weights_of(weights: &Weights, near: &[Neighbour]) -> Vec<i64> {
    near.iter().map(|neighbour| weights[neighbour.place.0][neighbour.place.1]).collect()
}
