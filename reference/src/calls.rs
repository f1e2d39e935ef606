//! Load and Advance.

use crate::answers::{AdvanceAnswer, Ended, LoadAnswer, Progress, Refusal};
use crate::diffusion::{descend, dots_due, place};
use crate::knit::{weights, Weights};
use crate::lowering::check_greys;
use crate::pyramid::renew_all;
use crate::shape::{cell_count, level_start, power, pyramid_length, HALF_DOT};
use crate::sound::sound;

/// The power of a side and the weights of a knit; refusals 1, then 11.
fn check_kind(side: u32, knit: u32) -> Result<(u32, &'static Weights), Refusal> {
    Ok((power(side)?, weights(knit)?))
}

/// Refuses a short pyramid, and then a short serial sheet or order list, for one of the eight sides (S 5.1).
fn check_lengths(side: u32, pyramid: &[i64], serials: &[u32], order: &[u32]) -> Result<(), Refusal> {
    if pyramid.len() < pyramid_length(power(side)?) {
        return Err(Refusal::ShortPyramid);
    }
    if serials.len() < cell_count(side) || order.len() < cell_count(side) {
        return Err(Refusal::ShortSheet);
    }
    Ok(())
}

/// Load: the pyramid summed from the greys, both other buffers cleared over their needed length. The knit given goes
/// into the record, and changes no buffer.
pub fn load(
    side: u32,
    knit: u32,
    greys: &[u8],
    pyramid: &mut [i64],
    serials: &mut [u32],
    order: &mut [u32],
) -> LoadAnswer {
    match check_load(side, knit, greys, pyramid, serials, order) {
        Err(refusal) => LoadAnswer { progress: Progress { side: 0, dots: 0, knit: 0 }, status: Err(refusal) },
        Ok(power) => {
            start(power, &greys[..cell_count(side)], pyramid, serials, order);
            LoadAnswer { progress: Progress { side, dots: 0, knit }, status: Ok(()) }
        }
    }
}

/// The refusals of Load: 1, 11, 2, 3, 4, then 12 for the map's own greys.
pub(crate) fn check_load(
    side: u32,
    knit: u32,
    greys: &[u8],
    pyramid: &[i64],
    serials: &[u32],
    order: &[u32],
) -> Result<u32, Refusal> {
    let power = check_lent(side, knit, greys, pyramid, serials, order)?;
    check_greys(&greys[..cell_count(side)])?;
    Ok(power)
}

/// The first refusals of Load and of Restore: 1, 11, 2, 3, 4.
pub(crate) fn check_lent(
    side: u32,
    knit: u32,
    greys: &[u8],
    pyramid: &[i64],
    serials: &[u32],
    order: &[u32],
) -> Result<u32, Refusal> {
    let (power, _) = check_kind(side, knit)?;
    if greys.len() < cell_count(side) {
        return Err(Refusal::ShortGreys);
    }
    check_lengths(side, pyramid, serials, order)?;
    Ok(power)
}

/// The sheet without a dot of these N² greys, which may be up to 255 here.
pub(crate) fn start(power: u32, greys: &[u8], pyramid: &mut [i64], serials: &mut [u32], order: &mut [u32]) {
    fill(power, greys, pyramid);
    serials[..greys.len()].fill(0);
    order[..greys.len()].fill(0);
}

/// Each cell owes 256 × its grey (S 3.9).
fn fill(power: u32, greys: &[u8], pyramid: &mut [i64]) {
    let residuals = &mut pyramid[level_start(power)..];
    for (residual, grey) in residuals.iter_mut().zip(greys) {
        *residual = 256 * i64::from(*grey);
    }
    renew_all(power, pyramid);
}

/// Advance: as many dots as are due, and no more than the budget. They are diffused by the record's knit, which stays.
pub fn advance(
    progress: Progress,
    budget: u32,
    pyramid: &mut [i64],
    serials: &mut [u32],
    order: &mut [u32],
) -> AdvanceAnswer {
    match check_sheet(progress, pyramid, serials, order) {
        Err(refusal) => AdvanceAnswer { progress, made: 0, status: Err(refusal) },
        Ok((power, weights)) => {
            let mut progress = progress;
            let made = dots_due(pyramid[0]).min(i64::from(budget)) as u32;
            for _ in 0..made {
                let cell = descend(power, progress.dots + 1, pyramid);
                place(progress, power, weights, cell, pyramid, serials, order);
                progress.dots += 1;
            }
            AdvanceAnswer { progress, made, status: Ok(ended(pyramid[0])) }
        }
    }
}

/// The refusals of Advance, and the first ones of Drill List: 1, 11, 3, 4, 5. Gives the power of the side and the
/// weights of the knit.
pub(crate) fn check_sheet(
    progress: Progress,
    pyramid: &[i64],
    serials: &[u32],
    order: &[u32],
) -> Result<(u32, &'static Weights), Refusal> {
    let kind = check_kind(progress.side, progress.knit)?;
    check_lengths(progress.side, pyramid, serials, order)?;
    if !sound(progress, pyramid, serials, order) {
        return Err(Refusal::NotSound);
    }
    Ok(kind)
}

/// The refusals of Relay: 1, 11, 3 for the one or the other, 4, 5.
pub(crate) fn check_relay(
    progress: Progress,
    pyramid: &[i64],
    serials: &[u32],
    order: &[u32],
    second: &[i64],
) -> Result<u32, Refusal> {
    let (power, _) = check_kind(progress.side, progress.knit)?;
    if second.len() < pyramid_length(power) {
        return Err(Refusal::ShortPyramid);
    }
    check_sheet(progress, pyramid, serials, order)?;
    Ok(power)
}

/// Finished where the top is less than half a dot (S 7.3).
fn ended(top: i64) -> Ended {
    if top < HALF_DOT {
        Ended::Finished
    } else {
        Ended::More
    }
}
