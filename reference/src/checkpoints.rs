//! Keep and Restore, which go by names (S 10.1, S 10.2). Restore is the return to a name.

use crate::answers::{CheckpointAnswer, Checkpoints, Progress, Refusal};
use crate::calls::{advance, check_lent, check_sheet, load};
use crate::lowering::check_greys;
use crate::shape::{cell_count, power};

/// Writes the dots of a record down under a name, over what was there. No sheet is looked at, so the dots may be any
/// number, and so may the knit. Refusals: 1, then 10 for the name.
pub fn keep(progress: Progress, checkpoints: Checkpoints, name: u32) -> CheckpointAnswer {
    match check_keep(progress.side, name) {
        Err(refusal) => CheckpointAnswer { progress, checkpoints, status: Err(refusal) },
        Ok(place) => {
            let mut checkpoints = checkpoints;
            checkpoints.kept[place] = u64::from(progress.dots) + 1;
            CheckpointAnswer { progress, checkpoints, status: Ok(()) }
        }
    }
}

fn check_keep(side: u32, name: u32) -> Result<usize, Refusal> {
    power(side)?;
    place_of(name)
}

/// The place of one of the eight names.
fn place_of(name: u32) -> Result<usize, Refusal> {
    match name {
        1..=8 => Ok(name as usize - 1),
        _ => Err(Refusal::UnknownName),
    }
}

/// Makes the sheet that these greys have after as many dots as the name has: the map is loaded anew, and advanced so
/// far, on the record's knit. Were these greys loaded before on that knit, that is the sheet on which the name was
/// kept.
pub fn restore(
    progress: Progress,
    checkpoints: Checkpoints,
    name: u32,
    greys: &[u8],
    pyramid: &mut [i64],
    serials: &mut [u32],
    order: &mut [u32],
) -> CheckpointAnswer {
    match check_restore(progress, checkpoints, name, greys, pyramid, serials, order) {
        Err(refusal) => CheckpointAnswer { progress, checkpoints, status: Err(refusal) },
        Ok(dots) => {
            let loaded = load(progress.side, progress.knit, greys, pyramid, serials, order);
            let advanced = advance(loaded.progress, dots, pyramid, serials, order);
            CheckpointAnswer { progress: advanced.progress, checkpoints, status: Ok(()) }
        }
    }
}

/// The refusals of Load and of Advance, 12 being the last of them, then 10 for the name: 1, 11, 2, 3, 4, 5, 12, 10.
/// Gives the name's dots.
fn check_restore(
    progress: Progress,
    checkpoints: Checkpoints,
    name: u32,
    greys: &[u8],
    pyramid: &[i64],
    serials: &[u32],
    order: &[u32],
) -> Result<u32, Refusal> {
    check_lent(progress.side, progress.knit, greys, pyramid, serials, order)?;
    check_sheet(progress, pyramid, serials, order)?;
    let map = &greys[..cell_count(progress.side)];
    check_greys(map)?;
    let count = checkpoints.kept[place_of(name)?];
    let dots = count.checked_sub(1).ok_or(Refusal::UnknownName)?;
    if dots > total(map) {
        return Err(Refusal::UnknownName);
    }
    // at most one for each cell
    Ok(dots as u32)
}

/// The map's total, the dots of its finished plate: the grey sum over 255, to the nearest number.
pub(crate) fn total(greys: &[u8]) -> u64 {
    let grey_sum: u64 = greys.iter().map(|grey| u64::from(*grey)).sum();
    (2 * grey_sum + 255) / 510
}
