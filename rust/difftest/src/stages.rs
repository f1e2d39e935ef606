//! Lists of Advance, Keep and Restore on a loaded map, with other values, other greys and damaged sheets among them.

use reference::{Checkpoints, Progress};

use crate::parts::{
    blank, budget, damage, lent, lent_greys, low_greys, mostly_low_greys, needed, other_knit, total, whole,
};
use crate::random::Random;
use crate::side_by_side::{Differs, Lent, Sheet, SideBySide};

/// A map under way: the greys that were loaded, the sheet, the record, and what is kept.
struct Stage {
    greys: Vec<u8>,
    sheet: Sheet,
    progress: Progress,
    checkpoints: Checkpoints,
}

/// A map loaded, some holes made and kept, then a list of calls; now and then the record's knit becomes the other one.
pub fn stage_case(random: &mut Random, calls: &mut SideBySide, side: u32) -> Result<(), Differs> {
    let spare = random.below(3);
    let greys = low_greys(random, needed(side).0 + spare);
    let mut sheet = blank(side, spare);
    let all = whole(&sheet);
    let progress = calls.load(side, random.good_knit(), &greys, &mut sheet, all)?.progress();
    let mut stage = Stage { greys, sheet, progress, checkpoints: Checkpoints::default() };
    advance(random, calls, &mut stage)?;
    keep(random, calls, &mut stage)?;
    // on a large map each return takes long
    for _ in 0..1 + random.below(if side > 64 { 2 } else { 10 }) {
        if random.once_in(16) {
            stage.progress.knit = other_knit(stage.progress.knit);
        }
        match random.below(8) {
            0 | 1 => advance(random, calls, &mut stage)?,
            2 | 3 => keep(random, calls, &mut stage)?,
            4 => restore_damaged(random, calls, &stage)?,
            _ => restore(random, calls, &mut stage)?,
        }
    }
    Ok(())
}

fn advance(random: &mut Random, calls: &mut SideBySide, stage: &mut Stage) -> Result<(), Differs> {
    let side = stage.progress.side;
    let lent = lent(random, side, &stage.sheet);
    let answer = calls.advance(stage.progress, budget(random, side), &mut stage.sheet, lent)?;
    stage.progress = answer.progress();
    Ok(())
}

/// One of three names, another of the eight, or now and then a number that is none.
fn name(random: &mut Random) -> u32 {
    let word = random.next() as u32;
    match random.below(16) {
        0 => random.pick(&[0, 9]),
        1 => random.pick(&[10, 255, 256, 257, 1 << 31, u32::MAX, word]),
        2..=5 => 1 + random.below(8) as u32,
        _ => random.pick(&[1, 4, 8]),
    }
}

/// Mostly a name that isn't empty, if there is one.
fn kept_name(random: &mut Random, checkpoints: Checkpoints) -> u32 {
    let names: Vec<u32> = (1..=8).filter(|name| checkpoints.kept[*name as usize - 1] > 0).collect();
    if names.is_empty() || random.once_in(3) {
        return name(random);
    }
    random.pick(&names)
}

/// Keep, of the record as it is, or now and then of another.
fn keep(random: &mut Random, calls: &mut SideBySide, stage: &mut Stage) -> Result<(), Differs> {
    let mut record = stage.progress;
    match random.below(12) {
        0 => record.side = random.side(),
        2 => record.knit = random.no_knit(),
        1 => record.dots = random.pick(&[0, 1, 65_537, 1 << 31, u32::MAX]),
        _ => (),
    }
    calls.keep(record, &mut stage.checkpoints, name(random))?;
    Ok(())
}

/// Restore with the greys that were loaded, or now and then with others, and with what is kept, or now and then with a
/// place of it another. The sheet stays sound, whatever comes of it.
fn restore(random: &mut Random, calls: &mut SideBySide, stage: &mut Stage) -> Result<(), Differs> {
    let Progress { side, .. } = stage.progress;
    let other_greys = if random.once_in(4) { Some(mostly_low_greys(random, stage.greys.len())) } else { None };
    let all_greys = other_greys.as_ref().unwrap_or(&stage.greys);
    let (name, mut value) = (kept_name(random, stage.checkpoints), stage.checkpoints);
    if random.once_in(4) {
        // the name's own place, or now and then another
        let place = if random.once_in(4) { random.below(8) } else { name.wrapping_sub(1) as usize % 8 };
        value.kept[place] = entry(random, side, all_greys);
    }
    let given = lent_greys(random, side, all_greys);
    let lent = lent(random, side, &stage.sheet);
    let answer = calls.restore(stage.progress, value, name, given, &mut stage.sheet, lent)?;
    stage.progress = answer.progress();
    Ok(())
}

/// An entry that no Keep may have made: around the one for the map's total, empty, too large, or any.
fn entry(random: &mut Random, side: u32, greys: &[u8]) -> u64 {
    let last = total(&greys[..needed(side).0]) + 1;
    let any = random.next();
    // a run to the end of a large map takes long
    let few = if side > 64 { 1 + any % 60 } else { last };
    random.pick(&[0, 1, few, few, last + 1, last + 1, last + 2, (1 << 32) + few, 1 << 63, u64::MAX, any])
}

/// Restore on a copy of the sheet in which one bit, or the record, is another; now and then a grey is too high.
fn restore_damaged(random: &mut Random, calls: &mut SideBySide, stage: &Stage) -> Result<(), Differs> {
    let (mut record, mut damaged) = (stage.progress, stage.sheet.clone());
    damage(random, &mut record, &mut damaged);
    let mut greys = stage.greys.clone();
    if random.once_in(4) {
        greys[random.below(stage.greys.len())] = 241;
    }
    let given = lent_greys(random, record.side, &greys);
    let lent = lent(random, stage.progress.side, &damaged);
    let name = kept_name(random, stage.checkpoints);
    calls.restore(record, stage.checkpoints, name, given, &mut damaged, lent)?;
    Ok(())
}

/// A finished map of two holes or more, with a name for no hole, for one, for all, and for more than there can be. Then
/// back to one hole, with a high grey behind the map's, which is not looked at; where the map isn't large also, with
/// all greys half as dark, to none, and forwards to its end.
pub fn stages_tour(calls: &mut SideBySide, progress: Progress, greys: &[u8], finished: &Sheet) -> Result<(), Differs> {
    let mut sheet = finished.clone();
    let all = whole(&sheet);
    let mut checkpoints = Checkpoints::default();
    for (name, dots) in [(1, 0), (8, 1), (8, progress.dots), (3, u32::MAX), (5, 1)] {
        calls.keep(Progress { dots, ..progress }, &mut checkpoints, name)?;
    }
    let lighter: Vec<u8> = greys.iter().map(|grey| grey / 2).collect();
    let mut record = progress;
    let longer = [greys, &[255]].concat();
    let returns = [(5, &longer[..]), (1, &lighter), (8, greys)];
    for (name, greys) in returns.into_iter().take(if progress.side > 64 { 1 } else { 3 }) {
        record = calls.restore(record, checkpoints, name, greys, &mut sheet, all)?.progress();
    }
    Ok(())
}

/// Keep and Restore refused for each reason by itself, and for all that come after it as well: no side, greys and parts
/// one place short, a pyramid with one bit another; then one hole too many, and a number that is no name, or an empty
/// name.
pub fn refused_stages(
    random: &mut Random,
    calls: &mut SideBySide,
    progress: Progress,
    greys: &[u8],
    sheet: &mut Sheet,
) -> Result<(), Differs> {
    let all = whole(sheet);
    let less = Lent { pyramid: all.pyramid - 1, serials: all.serials - 1, order: all.order - 1 };
    let no_side = Progress { side: progress.side + 1, ..progress };
    let mut value = Checkpoints { kept: [1, 0, 0, 0, 0, 0, total(greys) + 2, u64::MAX] };
    let wrong = random.pick(&[0, 2, 8, 9]);
    let mut damaged = sheet.clone();
    damaged.pyramid[random.below(all.pyramid)] ^= 1 << random.below(64);
    for (name, sheet, lent) in [(1, &mut *sheet, all), (wrong, &mut damaged, less)] {
        calls.keep(no_side, &mut value, name)?;
        calls.restore(no_side, value, name, greys, sheet, lent)?;
        calls.restore(progress, value, name, &greys[1..], sheet, lent)?;
        calls.restore(progress, value, name, greys, sheet, Lent { pyramid: less.pyramid, ..lent })?;
        let whole_pyramid = Lent { pyramid: all.pyramid, ..lent };
        calls.restore(progress, value, name, greys, sheet, Lent { serials: less.serials, ..whole_pyramid })?;
        calls.restore(progress, value, name, greys, sheet, Lent { order: less.order, ..whole_pyramid })?;
    }
    for name in [1, wrong] {
        calls.restore(progress, value, name, greys, &mut damaged, all)?;
    }
    for name in [0, 9, 1 << 31] {
        calls.keep(progress, &mut value, name)?;
    }
    refused_high_stages(random, calls, progress, value, greys, sheet)?;
    // greys past the map's don't make the total more, nor are they looked at
    let longer = [greys, &[255; 2]].concat();
    for name in [7, wrong] {
        calls.restore(progress, value, name, &longer, sheet, all)?;
    }
    Ok(())
}

/// Restore with a grey above 240, by itself and together with each other reason: one that comes before it is told, and
/// the name comes after it.
fn refused_high_stages(
    random: &mut Random,
    calls: &mut SideBySide,
    progress: Progress,
    value: Checkpoints,
    greys: &[u8],
    sheet: &mut Sheet,
) -> Result<(), Differs> {
    let all = whole(sheet);
    let mut high = greys.to_vec();
    // not the first, so that it is still there where the first is left out
    high[1 + random.below(greys.len() - 1)] = random.pick(&[241, 242, 254, 255]);
    for (record, lent) in [
        (progress, all),
        (Progress { side: progress.side + 1, ..progress }, all),
        (Progress { knit: random.no_knit(), ..progress }, all),
        (progress, Lent { pyramid: all.pyramid - 1, ..all }),
        (progress, Lent { serials: all.serials - 1, ..all }),
        (progress, Lent { order: all.order - 1, ..all }),
        (Progress { dots: progress.dots + 1, ..progress }, all),
    ] {
        for name in [1, 7, 9] {
            calls.restore(record, value, name, &high, sheet, lent)?;
        }
    }
    calls.restore(progress, value, 1, &high[1..], sheet, all)?;
    Ok(())
}
