//! Two cases, each on either knit, in which every call is made at a side whatever is drawn: once each call is answered,
//! once each call gives every refusal that it gives on a known side.

use reference::{lowered, write_map_text, Checkpoints, Progress, PLAIN, RIBBED};
use rulmedei::{list_room, page_length};

use crate::heads::{heads_tour, refused_heads};
use crate::knit_kinds;
use crate::older::{older_tour, refused_older};
use crate::parts::{blank, last_level, needed, other_knit, square, whole};
use crate::random::Random;
use crate::shelves::{plates_tour, refused_plates};
use crate::side_by_side::{Differs, Lent, Sheet, SideBySide};
use crate::sketches::{refused_sketches, sketch_tour};
use crate::stages::{refused_stages, stages_tour};

pub fn tour_case(random: &mut Random, calls: &mut SideBySide, side: u32) -> Result<(), Differs> {
    tour(random, calls, side, PLAIN)
}

pub fn ribbed_tour_case(random: &mut Random, calls: &mut SideBySide, side: u32) -> Result<(), Differs> {
    tour(random, calls, side, RIBBED)
}

/// A sample of at least two holes, which is lowered, its text read, the map loaded and run to its end in three calls,
/// with Levels and Drill List after each. Then Tally and Quote Page at every level, Compare and Shelf on the plate and
/// others, Keep and Restore, Relay, and the renewal of sums of which the top is wrong. After the text was read, another
/// one, with greys that are too high, is lowered, and a sketch around the map is read at every level. At last the map
/// is run with two heads.
fn tour(random: &mut Random, calls: &mut SideBySide, side: u32, knit: u32) -> Result<(), Differs> {
    let greys = sampled(random, calls, side)?;
    let mut read = vec![9; greys.len()];
    calls.map_text(side, &write_map_text(side, &greys), &mut read)?;
    lower_tour(random, calls, side, &greys)?;
    sketch_tour(random, calls, side, &greys)?;
    let mut sheet = blank(side, 0);
    let all = whole(&sheet);
    let mut progress = calls.load(side, knit, &greys, &mut sheet, all)?.progress();
    for budget in [1, 50, u32::MAX] {
        progress = calls.advance(progress, budget, &mut sheet, all)?.progress();
        calls.levels(side, &greys, &sheet.serials)?;
        calls.drill_list(progress, &sheet, all, &mut vec![46; list_room(side)])?;
    }
    every_level(random, calls, side, &greys, &sheet.serials)?;
    plates_tour(random, calls, side, &sheet.serials)?;
    stages_tour(calls, progress, &greys, &sheet)?;
    older_tour(calls, progress, &sheet)?;
    sheet.pyramid[0] += 1 + random.below(1000) as i64;
    let cell = [random.below(side as usize) as u32, random.below(side as usize) as u32];
    calls.renew(side, cell, &mut sheet.pyramid, all.pyramid)?;
    heads_tour(random, calls, side, knit, &greys)
}

/// Sample, then two of the greys set so that two holes are due, then all lowered.
fn sampled(random: &mut Random, calls: &mut SideBySide, side: u32) -> Result<Vec<u8>, Differs> {
    let mut greys = vec![9; needed(side).0];
    let room = greys.len();
    calls.sample(random.next() as u32, side, &mut greys, room)?;
    greys[..2].fill(255);
    calls.lower(side, &mut greys, room)?;
    Ok(greys)
}

/// The greys with one that is too high, or more.
fn raised(random: &mut Random, greys: &[u8]) -> Vec<u8> {
    let mut high = greys.to_vec();
    for _ in 0..random.pick(&[1, 1, 3, greys.len()]) {
        let any = random.below(greys.len());
        high[random.pick(&[0, greys.len() - 1, any])] = 241 + random.below(15) as u8;
    }
    high
}

/// Lower Text of a text with greys that are too high gives a text that Map Text takes; of that text it gives the same.
fn lower_tour(random: &mut Random, calls: &mut SideBySide, side: u32, greys: &[u8]) -> Result<(), Differs> {
    let high = raised(random, greys);
    let text = write_map_text(side, &high);
    let (mut read, mut out) = (vec![9; greys.len() + 1], vec![46; text.len() + 1]);
    calls.lower_text(side, &text, &mut read, &mut out)?;
    let low = write_map_text(side, &lowered(&high));
    if (&out[..text.len()], &read[..greys.len()]) != (&low[..], &lowered(&high)[..]) {
        return Err(format!("lower_text of side {side}: not the text of the lowered greys"));
    }
    calls.map_text(side, &low, &mut read)?;
    calls.lower_text(side, &low, &mut read, &mut out)?;
    if out[..text.len()] == low && out[text.len()] == 46 {
        return Ok(());
    }
    Err(format!("lower_text of side {side}: a text without a grey above 240 is not copied"))
}

/// Tally of a square, and Quote Page, for each level that the map has.
fn every_level(
    random: &mut Random,
    calls: &mut SideBySide,
    side: u32,
    greys: &[u8],
    serials: &[u32],
) -> Result<(), Differs> {
    for level in 0..=last_level(side) {
        let rows = 2usize.pow(level);
        calls.tally(side, serials, [level, random.below(rows) as u32, random.below(rows) as u32])?;
        calls.quote_page(side, greys, serials, level, &mut vec![46; page_length(level)])?;
    }
    Ok(())
}

pub fn refusals_case(random: &mut Random, calls: &mut SideBySide, side: u32) -> Result<(), Differs> {
    refusals(random, calls, side, PLAIN)
}

pub fn ribbed_refusals_case(random: &mut Random, calls: &mut SideBySide, side: u32) -> Result<(), Differs> {
    refusals(random, calls, side, RIBBED)
}

/// A map with some holes made, then the refusals one after another; at last the other knit.
fn refusals(random: &mut Random, calls: &mut SideBySide, side: u32, knit: u32) -> Result<(), Differs> {
    let greys = sampled(random, calls, side)?;
    let mut sheet = blank(side, 0);
    let all = whole(&sheet);
    let start = calls.load(side, knit, &greys, &mut sheet, all)?.progress();
    let progress = calls.advance(start, 1 + random.below(50) as u32, &mut sheet, all)?.progress();
    refused_for_lengths(calls, progress, &greys, &mut sheet)?;
    refused_for_knit(random, calls, progress, &greys, &mut sheet)?;
    refused_for_greys(random, calls, progress, &greys, &mut sheet)?;
    refused_looks(random, calls, side, &greys, &sheet.serials)?;
    refused_lists(calls, progress, &sheet)?;
    refused_plates(calls, side, &sheet.serials)?;
    refused_stages(random, calls, progress, &greys, &mut sheet)?;
    refused_for_damage(random, calls, progress, &sheet)?;
    refused_older(random, calls, progress, &sheet)?;
    refused_texts(random, calls, side, &greys)?;
    refused_sketches(random, calls, side, &greys)?;
    refused_heads(calls, side, knit, &greys)?;
    on_other_knit(calls, progress, &greys, &mut sheet)
}

/// Load, Advance, Drill List, Sample and the renewal, each part one place short.
fn refused_for_lengths(
    calls: &mut SideBySide,
    progress: Progress,
    greys: &[u8],
    sheet: &mut Sheet,
) -> Result<(), Differs> {
    let side = progress.side;
    let all = whole(sheet);
    let Lent { pyramid, serials, order } = all;
    for lent in
        [Lent { pyramid: pyramid - 1, ..all }, Lent { serials: serials - 1, ..all }, Lent { order: order - 1, ..all }]
    {
        calls.load(side, progress.knit, greys, sheet, lent)?;
        calls.advance(progress, 5, sheet, lent)?;
        calls.drill_list(progress, sheet, lent, &mut vec![46; list_room(side)])?;
    }
    calls.load(side, progress.knit, &greys[1..], sheet, all)?;
    calls.sample(1, side, &mut greys.to_vec(), greys.len() - 1)?;
    calls.renew(side, [0, 0], &mut sheet.pyramid, pyramid - 1)?;
    Ok(())
}

/// A number that is no knit: Load, Advance, Drill List and Restore refuse it by itself, and together with all that they
/// look at later; a number that is no side comes before. Keep doesn't look at the knit.
fn refused_for_knit(
    random: &mut Random,
    calls: &mut SideBySide,
    progress: Progress,
    greys: &[u8],
    sheet: &mut Sheet,
) -> Result<(), Differs> {
    let all = whole(sheet);
    let Lent { pyramid, serials, order } = all;
    let record = Progress { knit: random.no_knit(), ..progress };
    let no_side = Progress { side: progress.side + 1, ..record };
    let unsound = Progress { dots: progress.dots + 1, ..record };
    let mut value = Checkpoints { kept: [1, 0, 0, 0, 0, 0, 0, 2] };
    let mut out = vec![46; list_room(progress.side)];
    for (record, lent) in [
        (record, all),
        (no_side, all),
        (record, Lent { pyramid: pyramid - 1, ..all }),
        (record, Lent { serials: serials - 1, ..all }),
        (record, Lent { order: order - 1, ..all }),
        (unsound, all),
    ] {
        calls.load(record.side, record.knit, greys, sheet, lent)?;
        calls.advance(record, 5, sheet, lent)?;
        calls.drill_list(record, sheet, lent, &mut out)?;
        calls.restore(record, value, 8, greys, sheet, lent)?;
    }
    calls.load(record.side, record.knit, &greys[1..], sheet, all)?;
    calls.drill_list(record, sheet, all, &mut [])?;
    calls.restore(record, value, 8, &greys[1..], sheet, all)?;
    for name in [0, 2, 9] {
        calls.restore(record, value, name, greys, sheet, all)?;
        calls.keep(record, &mut value, name)?;
    }
    calls.keep(no_side, &mut value, 1)?;
    Ok(())
}

/// Load with a grey above 240, by itself and together with all that it looks at before; then with one behind the map's
/// own greys, on a copy of the sheet.
fn refused_for_greys(
    random: &mut Random,
    calls: &mut SideBySide,
    progress: Progress,
    greys: &[u8],
    sheet: &mut Sheet,
) -> Result<(), Differs> {
    let Progress { side, knit, .. } = progress;
    let all = whole(sheet);
    let Lent { pyramid, serials, order } = all;
    let high = [greys, &[241]].concat();
    calls.load(side, knit, &high, &mut sheet.clone(), all)?;
    for place in [0, greys.len() - 1, random.below(greys.len())] {
        let mut high = greys.to_vec();
        high[place] = random.pick(&[241, 242, 254, 255]);
        calls.load(side, knit, &high, sheet, all)?;
        calls.load(side + 1, knit, &high, sheet, all)?;
        calls.load(side, random.no_knit(), &high, sheet, all)?;
        calls.load(side, knit, &high[..greys.len() - 1], sheet, all)?;
        calls.load(side, knit, &high, sheet, Lent { pyramid: pyramid - 1, ..all })?;
        calls.load(side, knit, &high, sheet, Lent { serials: serials - 1, ..all })?;
        calls.load(side, knit, &high, sheet, Lent { order: order - 1, ..all })?;
    }
    Ok(())
}

/// The record's knit becomes the other one: Advance goes on with it on the same sheet, and Restore makes the sheet that
/// the greys have on it.
fn on_other_knit(calls: &mut SideBySide, progress: Progress, greys: &[u8], sheet: &mut Sheet) -> Result<(), Differs> {
    let all = whole(sheet);
    let other = Progress { knit: other_knit(progress.knit), ..progress };
    let mut value = Checkpoints::default();
    calls.keep(progress, &mut value, 2)?;
    calls.drill_list(other, sheet, all, &mut vec![46; list_room(progress.side)])?;
    let after = calls.advance(other, 5, sheet, all)?;
    if progress.dots > 0 && after.progress().dots > progress.dots {
        calls.coverage.note_kinds(knit_kinds::changed(progress.knit));
    }
    let back = calls.restore(after.progress(), value, 2, greys, sheet, all)?;
    if back.code == 0 && back.progress().dots > 0 {
        calls.coverage.note_kinds(knit_kinds::restored_changed());
    }
    Ok(())
}

/// Tally, Levels and Quote Page: parts one place short, squares and levels that there aren't.
fn refused_looks(
    random: &mut Random,
    calls: &mut SideBySide,
    side: u32,
    greys: &[u8],
    serials: &[u32],
) -> Result<(), Differs> {
    let (past, square) = (last_level(side) + 1, square(random, side));
    let level = square[0];
    calls.tally(side, &serials[1..], square)?;
    for block in [[past, 0, 0], [level, 1 << level, 0], [level, 0, 1 << level]] {
        calls.tally(side, serials, block)?;
    }
    calls.levels(side, &greys[1..], serials)?;
    calls.levels(side, greys, &serials[1..])?;
    let mut out = vec![46; page_length(level)];
    calls.quote_page(side, &greys[1..], serials, level, &mut out)?;
    calls.quote_page(side, greys, &serials[1..], level, &mut out)?;
    calls.quote_page(side, greys, serials, past, &mut out)?;
    let short = out.len() - 1;
    calls.quote_page(side, greys, serials, level, &mut out[..short])?;
    Ok(())
}

/// Drill List into an output of just the list's length, and of one byte less.
fn refused_lists(calls: &mut SideBySide, progress: Progress, sheet: &Sheet) -> Result<(), Differs> {
    let mut out = vec![46; list_room(progress.side)];
    let length = calls.drill_list(progress, sheet, whole(sheet), &mut out)?.values[0] as usize;
    calls.drill_list(progress, sheet, whole(sheet), &mut out[..length])?;
    calls.drill_list(progress, sheet, whole(sheet), &mut out[..length - 1])?;
    Ok(())
}

/// Advance and Drill List on a pyramid with one bit another, and a renewal with an entry that is too large.
fn refused_for_damage(
    random: &mut Random,
    calls: &mut SideBySide,
    progress: Progress,
    sheet: &Sheet,
) -> Result<(), Differs> {
    let side = progress.side;
    let mut damaged = sheet.clone();
    let all = whole(&damaged);
    let place = random.below(all.pyramid);
    damaged.pyramid[place] ^= 1 << random.below(64);
    calls.advance(progress, 5, &mut damaged, all)?;
    calls.drill_list(progress, &damaged, all, &mut vec![46; list_room(side)])?;
    damaged.pyramid[place] = random.beyond();
    calls.renew(side, [side - 1, 0], &mut damaged.pyramid, all.pyramid)?;
    Ok(())
}

/// Map Text and Lower Text with a greys buffer one place short, and with the text's last byte cut off or another behind
/// it; Lower Text with an output one byte short, and with none. All of it without a grey above 240 and with one, which
/// by itself Map Text alone refuses.
fn refused_texts(random: &mut Random, calls: &mut SideBySide, side: u32, greys: &[u8]) -> Result<(), Differs> {
    let high = raised(random, greys);
    for greys in [greys, &high[..]] {
        let text = write_map_text(side, greys);
        let (mut read, mut out) = (vec![9; greys.len()], vec![46; text.len()]);
        calls.map_text(side, &text, &mut read.clone())?;
        let longer = [&text[..], &[random.next() as u8]].concat();
        for text in [&text[..text.len() - 1], &longer] {
            calls.map_text(side, text, &mut read)?;
            calls.lower_text(side, text, &mut read, &mut out)?;
            calls.lower_text(side, text, &mut read, &mut [])?;
        }
        calls.map_text(side, &text, &mut read[1..])?;
        calls.lower_text(side, &text, &mut read[1..], &mut out)?;
        calls.lower_text(side, &text, &mut read[1..], &mut [])?;
        calls.lower_text(side, &text, &mut read, &mut out[1..])?;
        calls.lower_text(side, &text, &mut read, &mut [])?;
    }
    Ok(())
}
