//! The renewal by itself.

use reference::{renew_all, to_quarters};

use crate::parts::{last_level, needed};
use crate::random::Random;
use crate::side_by_side::{Differs, SideBySide};

/// The renewal at one cell after another of the same pyramid.
pub fn renewal_case(random: &mut Random, calls: &mut SideBySide, side: u32) -> Result<(), Differs> {
    let (_, needed) = needed(side);
    let mut pyramid = wrong_pyramid(random, side);
    for _ in 0..1 + random.below(3) {
        let length = if random.once_in(8) { random.length(needed) } else { pyramid.len() };
        let cell = [coordinate(random, side), coordinate(random, side)];
        let lent = length.min(pyramid.len());
        calls.renew(side, cell, &mut pyramid, lent)?;
    }
    Ok(())
}

/// A pyramid with wrong sums, of a length around the needed one; what lies past that is any 64-bit number. Now and then
/// an entry is beyond those of which the renewal speaks.
fn wrong_pyramid(random: &mut Random, side: u32) -> Vec<i64> {
    let (_, needed) = needed(side);
    let mut pyramid = if random.once_in(2) { altered_sums(random, side) } else { limited_noise(random, needed) };
    if random.once_in(6) {
        pyramid[random.below(needed)] = random.beyond();
    }
    let length = random.length(needed);
    pyramid.resize_with(length, || if random.once_in(2) { random.beyond() } else { random.entry() });
    pyramid
}

/// The sums of some cells, then one entry or many altered.
fn altered_sums(random: &mut Random, side: u32) -> Vec<i64> {
    let (cells, needed) = needed(side);
    let mut pyramid: Vec<i64> = (0..needed).map(|_| random.within(70_000)).collect();
    renew_all(last_level(side), &mut pyramid);
    let mut pyramid = to_quarters(side, &pyramid);
    let altered = random.pick(&[1, 1, 2, cells]);
    for _ in 0..altered {
        let place = random.below(needed);
        let entry = pyramid[place];
        pyramid[place] = random.pick(&[entry + 1, entry - 1, 0, 1 << 40, -1 << 40]);
    }
    pyramid
}

/// Noise from -2^40 to 2^40, or in a narrower range.
fn limited_noise(random: &mut Random, count: usize) -> Vec<i64> {
    let bits = random.pick(&[2, 17, 37, 40, 40]);
    (0..count).map(|_| random.within(1 << bits)).collect()
}

/// A row or column: at the rim, in the middle or any; now and then one that there isn't.
fn coordinate(random: &mut Random, side: u32) -> u32 {
    let (last, middle) = (side.wrapping_sub(1), side / 2);
    let any = random.below(side.max(1) as usize) as u32;
    let word = random.next() as u32;
    match random.below(16) {
        0..=5 => random.pick(&[0, 1, last, last.wrapping_sub(1), middle, middle.wrapping_sub(1)]),
        6 => random.pick(&[side, side.wrapping_add(1), u32::MAX, 1 << 31, word]),
        _ => any,
    }
}
