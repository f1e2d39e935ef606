//! Relay: sheets that lie row after row, as earlier versions left them, sound or damaged; and how they go on.

use reference::{by_rows, to_rows, Buffers, Progress};

use crate::parts::{blank, budget, damage, greys, lent, needed, noise, whole};
use crate::random::Random;
use crate::side_by_side::{Differs, Lent, Sheet, SideBySide};

/// An older sheet with some holes, now and then damaged, or in the layout of today; or noise. Relay writes it into a
/// pyramid of any length; where it does, the sheet is run on (S 2.6, S 12.2).
pub fn older_case(random: &mut Random, calls: &mut SideBySide, side: u32) -> Result<(), Differs> {
    let (mut progress, mut old) = older(random, side);
    match random.below(8) {
        0 => damage(random, &mut progress, &mut old),
        1 => old.pyramid = reference::to_quarters(side, &old.pyramid),
        2 => old = noise(random, side),
        _ => (),
    }
    let lent = lent(random, side, &old);
    let mut second = vec![-7; random.length(needed(side).1)];
    let room = second.len();
    if calls.relay(progress, &old, lent, &mut second, room)?.code != 0 {
        return Ok(());
    }
    goes_on(calls, progress, &old, second, budget(random, side))
}

/// A sheet that the reference made row after row, of greys up to 255, which were not refused then; for a number that is
/// no side, a blank one.
fn older(random: &mut Random, side: u32) -> (Progress, Sheet) {
    let spare = random.below(3);
    let (cells, needed) = needed(side);
    let greys = greys(random, cells);
    let start = Progress { side, dots: 0, knit: random.good_knit() };
    let mut old = blank(side, spare);
    let Ok(loaded) = Buffers::older(side, &greys) else {
        return (start, old);
    };
    let Sheet { pyramid, serials, order } = &mut old;
    pyramid[..needed].copy_from_slice(&to_rows(side, &loaded.pyramid));
    serials[..cells].fill(0);
    order[..cells].fill(0);
    let after = by_rows::advance(start, budget(random, side), pyramid, serials, order);
    (after.progress, old)
}

/// Advance on the sheet with its second pyramid, by the library and by the reference, leaves what the reference leaves
/// of the older one.
fn goes_on(
    calls: &mut SideBySide,
    progress: Progress,
    old: &Sheet,
    second: Vec<i64>,
    budget: u32,
) -> Result<(), Differs> {
    let mut new = Sheet { pyramid: second, ..old.clone() };
    let mut old = old.clone();
    let all = whole(&new);
    let ours = calls.advance(progress, budget, &mut new, all)?;
    let theirs = by_rows::advance(progress, budget, &mut old.pyramid, &mut old.serials, &mut old.order);
    let (_, needed) = needed(progress.side);
    let rows = to_rows(progress.side, &new.pyramid);
    if ours.progress() == theirs.progress
        && rows[..needed] == old.pyramid[..needed]
        && (&new.serials, &new.order) == (&old.serials, &old.order)
    {
        return Ok(());
    }
    Err(format!("relay, then advance from {progress:?} with budget {budget}: not as row after row"))
}

/// The sheet of a tour as it would lie row after row.
fn as_older(side: u32, sheet: &Sheet) -> Sheet {
    Sheet { pyramid: to_rows(side, &sheet.pyramid), ..sheet.clone() }
}

/// Relay of a sheet written row after row gives its pyramid back.
pub fn older_tour(calls: &mut SideBySide, progress: Progress, sheet: &Sheet) -> Result<(), Differs> {
    let old = as_older(progress.side, sheet);
    let mut second = vec![-7; old.pyramid.len() + 1];
    let room = second.len();
    calls.relay(progress, &old, whole(&old), &mut second, room)?;
    if second[..room - 1] == sheet.pyramid[..] && second[room - 1] == -7 {
        return Ok(());
    }
    Err(format!("relay of side {}: not the pyramid that was written row after row", progress.side))
}

/// Each refusal of Relay by itself, and with others.
pub fn refused_older(
    random: &mut Random,
    calls: &mut SideBySide,
    progress: Progress,
    sheet: &Sheet,
) -> Result<(), Differs> {
    let old = as_older(progress.side, sheet);
    let mut second = vec![-7; old.pyramid.len()];
    let room = second.len();
    let all = whole(&old);
    let no_knit = Progress { knit: random.no_knit(), ..progress };
    let unsound = Progress { dots: progress.dots + 1, ..progress };
    let short = Lent { pyramid: all.pyramid - 1, ..all };
    for (record, lent, room) in [
        (Progress { side: progress.side + 1, ..no_knit }, short, room - 1),
        (no_knit, all, room),
        (Progress { dots: unsound.dots, ..no_knit }, short, room - 1),
        (progress, short, room),
        (progress, all, room - 1),
        (unsound, Lent { serials: all.serials - 1, ..all }, room - 1),
        (progress, Lent { serials: all.serials - 1, ..all }, room),
        (unsound, Lent { order: all.order - 1, ..all }, room),
        (unsound, all, room),
    ] {
        calls.relay(record, &old, lent, &mut second, room)?;
    }
    let mut damaged = old.clone();
    damaged.pyramid[random.below(all.pyramid)] ^= 1 << random.below(64);
    calls.relay(progress, &damaged, all, &mut second, room)?;
    calls.relay(progress, sheet, all, &mut second, room)?;
    Ok(())
}
