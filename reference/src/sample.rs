//! Sample (S 12.1), and the program `sample` (S 14.3).

use crate::answers::Refusal;
use crate::lowering::lower;
use crate::map_text::write_map_text;
use crate::shape::{cell_count, power};

/// the seed and the side of the sample that is printed
const PRINTED: (u32, u32) = (1, 32);

/// Fills the greys of a side from a seed, and gives the state reached. The side is looked at first, then the length
/// (S 5.2). Places past the N² greys stay.
pub fn sample(seed: u32, side: u32, greys: &mut [u8]) -> Result<u32, Refusal> {
    power(side)?;
    let cells = cell_count(side);
    if greys.len() < cells {
        return Err(Refusal::ShortGreys);
    }
    Ok(fill(seed, &mut greys[..cells]))
}

/// What the program `sample` prints: a map text of side 32, from seed 1. Its greys are lowered first, so that Map Text
/// takes the text. It reads no input.
pub fn sample_text() -> Vec<u8> {
    let (seed, side) = PRINTED;
    let mut greys = vec![0; cell_count(side)];
    fill(seed, &mut greys);
    lower(&mut greys);
    write_map_text(side, &greys)
}

/// One step for each grey, by cell number; the grey is that of the state after the step. Gives the state reached.
pub(crate) fn fill(seed: u32, greys: &mut [u8]) -> u32 {
    let mut state = seed;
    for grey in greys {
        state = step(state);
        *grey = grey_of(state);
    }
    state
}

/// One step of the state (S 12.1).
fn step(state: u32) -> u32 {
    ((1_664_525 * u64::from(state) + 1_013_904_223) % (1 << 32)) as u32
}

/// The grey of a state: its highest byte.
fn grey_of(state: u32) -> u8 {
    (state / (1 << 24)) as u8
}
