//! What is lent to calls: sheets, greys and parts of them, damage, blocks, levels and budgets, drawn for a side.

use reference::{cell_count, lowered, power, pyramid_length, Progress, HIGHEST, PLAIN, RIBBED};

use crate::random::Random;
use crate::side_by_side::{Lent, Sheet};

/// The cells and the pyramid's needed length; those of side 4 for a side that isn't one of the eight.
pub fn needed(side: u32) -> (usize, usize) {
    match power(side) {
        Ok(power) => (cell_count(side), pyramid_length(power)),
        Err(_) => (16, 21),
    }
}

/// The map's last level; that of side 4 for a side that isn't one of the eight.
pub fn last_level(side: u32) -> u32 {
    power(side).unwrap_or(2)
}

/// A sheet with places to spare past the needed ones.
pub fn blank(side: u32, spare: usize) -> Sheet {
    let (cells, pyramid) = needed(side);
    Sheet { pyramid: vec![-1; pyramid + spare], serials: vec![9; cells + spare], order: vec![9; cells + spare] }
}

/// A sheet of noise with lengths around those of a side.
pub fn noise(random: &mut Random, side: u32) -> Sheet {
    let (cells, pyramid) = needed(side);
    let (p, s, o) = (random.length(pyramid), random.length(cells), random.length(cells));
    Sheet {
        pyramid: (0..p).map(|_| random.entry()).collect(),
        serials: (0..s).map(|_| random.serial()).collect(),
        order: (0..o).map(|_| random.below(cells + 1) as u32).collect(),
    }
}

pub fn whole(sheet: &Sheet) -> Lent {
    Lent { pyramid: sheet.pyramid.len(), serials: sheet.serials.len(), order: sheet.order.len() }
}

/// All of a sheet, or now and then parts with lengths around the needed ones.
pub fn lent(random: &mut Random, side: u32, sheet: &Sheet) -> Lent {
    if !random.once_in(4) {
        return whole(sheet);
    }
    let (cells, pyramid) = needed(side);
    Lent {
        pyramid: random.length(pyramid).min(sheet.pyramid.len()),
        serials: random.length(cells).min(sheet.serials.len()),
        order: random.length(cells).min(sheet.order.len()),
    }
}

/// The other of the two knits.
pub fn other_knit(knit: u32) -> u32 {
    if knit == PLAIN {
        RIBBED
    } else {
        PLAIN
    }
}

/// Makes one bit of a sheet, or the record, another.
pub fn damage(random: &mut Random, progress: &mut Progress, sheet: &mut Sheet) {
    match random.below(9) {
        0 => progress.side = random.side(),
        8 => progress.knit = random.no_knit(),
        1 => progress.dots = progress.dots.wrapping_add(random.pick(&[1, u32::MAX, 2, 1 << 31])),
        2..=4 => {
            let place = random.below(sheet.pyramid.len());
            sheet.pyramid[place] ^= 1 << random.below(64);
        }
        5 | 6 => {
            let place = random.below(sheet.serials.len());
            sheet.serials[place] ^= 1 << random.below(32);
        }
        _ => {
            let place = random.below(sheet.order.len());
            sheet.order[place] ^= 1 << random.below(32);
        }
    }
}

/// Greys that Load takes.
pub fn low_greys(random: &mut Random, count: usize) -> Vec<u8> {
    lowered(&greys(random, count))
}

/// Mostly greys that Load takes; now and then one of them is too high, or any may be.
pub fn mostly_low_greys(random: &mut Random, count: usize) -> Vec<u8> {
    let mut greys = greys(random, count);
    if !random.once_in(8) {
        greys = lowered(&greys);
    }
    if random.once_in(4) && count > 0 {
        let any = random.below(count);
        greys[random.pick(&[0, count - 1, any])] = HIGHEST + 1 + random.below(15) as u8;
    }
    greys
}

/// Greys of one kind or another, up to 255.
pub fn greys(random: &mut Random, count: usize) -> Vec<u8> {
    let flat = random.next() as u8;
    match random.below(6) {
        0 => vec![flat; count],
        1 => vec![random.pick(&[0, 1, 127, 128, 129, 239, 240, 241, 255]); count],
        2 => (0..count).map(|_| if random.once_in(8) { 255 } else { 0 }).collect(),
        3 => (0..count).map(|place| (place * 255 / count) as u8).collect(),
        _ => random.bytes(count),
    }
}

/// All of the greys, or now and then a part with a length around the needed one.
pub fn lent_greys<'a>(random: &mut Random, side: u32, greys: &'a [u8]) -> &'a [u8] {
    let length = if random.once_in(4) { random.length(needed(side).0) } else { greys.len() };
    &greys[..length.min(greys.len())]
}

/// The holes of the finished map.
pub fn total(greys: &[u8]) -> u64 {
    let sum: u64 = greys.iter().map(|grey| u64::from(*grey)).sum();
    (2 * sum + 255) / 510
}

/// A budget. On large sides it is mostly of some dozens of holes, and on the two largest never of more, which would
/// take long.
pub fn budget(random: &mut Random, side: u32) -> u32 {
    let dozens = 1 + random.below(60) as u32;
    let drawn = random.budget();
    match side {
        0..=32 => drawn,
        33..=64 => random.pick(&[dozens, drawn]),
        _ => random.pick(&[dozens, drawn.min(60)]),
    }
}

/// A square that a map has.
pub fn square(random: &mut Random, side: u32) -> [u32; 3] {
    let level = random.below(last_level(side) as usize + 1) as u32;
    let rows = 2usize.pow(level);
    [level, random.below(rows) as u32, random.below(rows) as u32]
}

/// A square of a level, or now and then one that there isn't.
pub fn block(random: &mut Random, side: u32) -> [u32; 3] {
    let level = random.below(last_level(side) as usize + 2) as u32;
    let rows = 2usize.pow(level);
    let word = random.next() as u32;
    match random.below(10) {
        0 => [level, rows as u32, random.below(rows) as u32],
        1 => [level, random.below(rows) as u32, rows as u32],
        2 => [word, 0, 0],
        3 => [level, word, word],
        _ => [level, random.below(rows) as u32, random.below(rows) as u32],
    }
}

/// A level that the map has, the next one, or now and then any number.
pub fn level(random: &mut Random, side: u32) -> u32 {
    if random.once_in(16) {
        return random.next() as u32;
    }
    random.below(last_level(side) as usize + 2) as u32
}
