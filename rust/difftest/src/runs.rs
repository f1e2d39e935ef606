//! Loads, runs of calls, sheets that no Load made, and noise.

use reference::{renew_all, to_quarters, Progress};
use rulmedei::page_length;

use crate::parts::{
    blank, block, budget, damage, last_level, lent, lent_greys, level, low_greys, mostly_low_greys, needed, noise,
    other_knit, whole,
};
use crate::random::Random;
use crate::side_by_side::{Differs, Lent, Sheet, SideBySide};

/// Load into buffers of any length and content.
pub fn load_case(random: &mut Random, calls: &mut SideBySide, side: u32) -> Result<(), Differs> {
    let count = random.length(needed(side).0);
    let greys = mostly_low_greys(random, count);
    let mut sheet = noise(random, side);
    let lent = lent(random, side, &sheet);
    calls.load(side, random.knit(), &greys, &mut sheet, lent)?;
    Ok(())
}

/// A map loaded, then a list of calls; now and then the record's knit becomes the other one between two of them.
pub fn run_case(random: &mut Random, calls: &mut SideBySide, side: u32) -> Result<(), Differs> {
    let spare = random.below(3);
    let greys = low_greys(random, needed(side).0 + spare);
    let mut sheet = blank(side, spare);
    let all = whole(&sheet);
    let mut progress = calls.load(side, random.good_knit(), &greys, &mut sheet, all)?.progress();
    for _ in 0..1 + random.below(10) {
        if random.once_in(16) {
            progress.knit = other_knit(progress.knit);
        }
        progress = one_call(random, calls, progress, &greys, &mut sheet)?;
    }
    Ok(())
}

/// One call on a sheet that is sound, and stays so: what is damaged is damaged on a copy. Gives the record afterwards.
fn one_call(
    random: &mut Random,
    calls: &mut SideBySide,
    progress: Progress,
    greys: &[u8],
    sheet: &mut Sheet,
) -> Result<Progress, Differs> {
    let side = progress.side;
    let lent = lent(random, side, sheet);
    match random.below(13) {
        0 => calls.tally(side, &sheet.serials[..lent.serials], block(random, side)).map(|_| progress),
        1 => calls.levels(side, greys, &sheet.serials[..lent.serials]).map(|_| progress),
        2 => list(random, calls, progress, sheet, lent).map(|_| progress),
        3 => page(random, calls, side, greys, &sheet.serials[..lent.serials]).map(|_| progress),
        4..=7 => on_damage(random, calls, progress, sheet, lent).map(|_| progress),
        _ => {
            let budget = budget(random, side);
            let after = calls.advance(progress, budget, sheet, lent)?;
            Ok(after.progress())
        }
    }
}

/// Quote Page into an output around the page's length; for a level that there isn't, around that of the map's last.
fn page(random: &mut Random, calls: &mut SideBySide, side: u32, greys: &[u8], serials: &[u32]) -> Result<(), Differs> {
    let greys = lent_greys(random, side, greys);
    let level = level(random, side);
    let length = random.length(page_length(level.min(last_level(side))));
    let mut out = vec![46; length];
    calls.quote_page(side, greys, serials, level, &mut out)?;
    Ok(())
}

/// Drill List into an output around the list's length.
fn list(
    random: &mut Random,
    calls: &mut SideBySide,
    progress: Progress,
    sheet: &Sheet,
    lent: Lent,
) -> Result<(), Differs> {
    let mut long = vec![46; 16 + 14 * sheet.order.len()];
    let answer = calls.drill_list(progress, sheet, lent, &mut long)?;
    let length = random.length(answer.values[0] as usize);
    let mut out = vec![46; length];
    calls.drill_list(progress, sheet, lent, &mut out)?;
    Ok(())
}

/// Advance or Drill List on a copy of the sheet in which one bit, or the record, is another.
fn on_damage(
    random: &mut Random,
    calls: &mut SideBySide,
    progress: Progress,
    sheet: &Sheet,
    lent: Lent,
) -> Result<(), Differs> {
    let mut damaged = sheet.clone();
    let mut progress = progress;
    damage(random, &mut progress, &mut damaged);
    if random.once_in(3) {
        return list(random, calls, progress, &damaged, lent);
    }
    calls.advance(progress, budget(random, 256), &mut damaged, lent)?;
    Ok(())
}

/// A sheet without holes that no Load made, sound or nearly so, run on in three calls, and its list.
pub fn made_up_case(random: &mut Random, calls: &mut SideBySide, side: u32) -> Result<(), Differs> {
    let (cells, length) = needed(side);
    // one residual too high or too low is enough for a refusal, so half of the sheets have none
    let odds = if random.once_in(2) { 40.max(2 * cells) } else { usize::MAX };
    let mut pyramid = vec![0; length];
    for entry in &mut pyramid[length - cells..] {
        *entry = made_up_residual(random, odds);
    }
    renew_all(last_level(side), &mut pyramid);
    let pyramid = to_quarters(side, &pyramid);
    let mut sheet = Sheet { pyramid, serials: vec![0; cells], order: vec![0; cells] };
    let mut progress = Progress { side, dots: 0, knit: random.good_knit() };
    for _ in 0..3 {
        let all = whole(&sheet);
        progress = calls.advance(progress, budget(random, side), &mut sheet, all)?.progress();
    }
    list(random, calls, progress, &sheet, whole(&sheet))
}

/// What an unburnt cell of a sound sheet without holes may owe; twice in `odds` draws a little more or less.
fn made_up_residual(random: &mut Random, odds: usize) -> i64 {
    match random.below(odds) {
        0 => 65_281,
        1 => -1,
        2 => 65_280,
        _ => random.below(65_281) as i64,
    }
}

/// Calls on noise.
pub fn noise_case(random: &mut Random, calls: &mut SideBySide, side: u32) -> Result<(), Differs> {
    let (cells, _) = needed(side);
    let count = random.length(cells);
    let greys = random.bytes(count);
    let mut sheet = noise(random, side);
    let progress = Progress { side, dots: random.below(cells + 2) as u32, knit: random.knit() };
    let lent = lent(random, side, &sheet);
    calls.tally(side, &sheet.serials[..lent.serials], block(random, side))?;
    calls.levels(side, &greys, &sheet.serials[..lent.serials])?;
    page(random, calls, side, &greys, &sheet.serials[..lent.serials])?;
    list(random, calls, progress, &sheet, lent)?;
    calls.advance(progress, budget(random, side), &mut sheet, lent)?;
    Ok(())
}
