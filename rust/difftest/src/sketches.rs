//! Sketches, and texts that are nearly such.

use reference::{cell_count, lowered, write_map_text, write_sketch, HIGHEST};

use crate::parts::{greys, last_level, level, mostly_low_greys};
use crate::random::Random;
use crate::side_by_side::{Differs, Quoted, SideBySide};
use crate::texts::{change, other_side, rename};

/// What the places of buffers hold before a call, and how many there are past those lent.
const BEFORE: (u8, u8, u32) = (9, 8, 7);
const SPARE: usize = 2;

/// The lows and the highs of a sketch.
type Pairs = (Vec<u8>, Vec<u8>);

/// Sketch Quote with so many places lent of the lows, the highs and the caps.
fn quote(calls: &mut SideBySide, side: u32, text: &[u8], level: u32, lent: [usize; 3]) -> Result<(), Differs> {
    let [lows, highs, caps] = lent.map(|length| length + SPARE);
    let mut quoted = Quoted { lows: vec![BEFORE.0; lows], highs: vec![BEFORE.1; highs], caps: vec![BEFORE.2; caps] };
    calls.sketch_quote(side, text, level, &mut quoted, lent)?;
    Ok(())
}

/// The caps that a level has, or as many as the last level for one that the map hasn't.
fn caps_needed(side: u32, level: u32) -> usize {
    4usize.pow(level.min(last_level(side)))
}

/// A sketch with some bytes changed, or now and then another first line.
pub fn sketch_case(random: &mut Random, calls: &mut SideBySide, side: u32) -> Result<(), Differs> {
    let (lows, highs) = pairs(random, cell_count(side));
    let mut text = write_sketch(side, &lows, &highs);
    if random.once_in(16) {
        let line = random.pick(&["0", "1", "3", "02", "257", "999", "1000", "", "+2", "2\r"]);
        text.splice(..side.to_string().len(), line.bytes());
    }
    for _ in 0..random.pick(&[0, 0, 0, 1, 1, 2]) {
        change(random, &mut text);
    }
    read(random, calls, side, &text)
}

/// A text that is none of a sketch by its lines: that of a map, or those of two maps; or the lines, of a sketch or of a
/// map, are of another side than the first one says.
pub fn mixed_sketch_case(random: &mut Random, calls: &mut SideBySide, side: u32) -> Result<(), Differs> {
    let of_side = random.once_in(2);
    let written = if of_side { side } else { other_side(random, side) };
    let (lows, highs) = pairs(random, cell_count(written));
    let mut text = match (of_side, random.once_in(2)) {
        (true, true) => two_maps(side, &lows, &highs),
        (false, true) => write_sketch(written, &lows, &highs),
        _ => write_map_text(written, &mostly_low_greys(random, cell_count(written))),
    };
    rename(&mut text, written, side);
    if random.once_in(4) {
        change(random, &mut text);
    }
    read(random, calls, side, &text)
}

/// The lows as a map, then the lines of the highs as one: as many numbers as a sketch has, in twice as many lines.
fn two_maps(side: u32, lows: &[u8], highs: &[u8]) -> Vec<u8> {
    let behind = side.to_string().len() + 1;
    [&write_map_text(side, lows)[..], &write_map_text(side, highs)[behind..]].concat()
}

/// Sketch Quote for a level, with enough room for the greys or with lengths around the needed one, and caps around
/// theirs; now and then there is no place for them. Then Map Text of the same.
fn read(random: &mut Random, calls: &mut SideBySide, side: u32, text: &[u8]) -> Result<(), Differs> {
    let (level, cells) = (level(random, side), cell_count(side));
    let caps = if random.once_in(16) { 0 } else { random.length(caps_needed(side, level)) };
    let [lows, highs] = if random.once_in(3) { [cells; 2].map(|cells| random.length(cells)) } else { [cells; 2] };
    quote(calls, side, text, level, [lows, highs, caps])?;
    calls.map_text(side, text, &mut vec![9; random.length(cells)])?;
    Ok(())
}

/// Pairs of one kind or another; now and then a grey of them is too high, one of them falls, or both.
fn pairs(random: &mut Random, count: usize) -> Pairs {
    let mut pairs = drawn(random, count);
    if random.once_in(4) {
        let pair = falling(random);
        put(random, &mut pairs, pair);
    }
    if random.once_in(4) {
        let pair = high(random);
        put(random, &mut pairs, pair);
    }
    pairs
}

/// Pairs that mostly rise, or are equal, of greys that are mostly up to 240.
fn drawn(random: &mut Random, count: usize) -> Pairs {
    let (one, other) = (greys(random, count), greys(random, count));
    let (one, other) = if random.once_in(24) { (one, other) } else { (lowered(&one), lowered(&other)) };
    let about = random.below(20) as u8;
    match random.below(24) {
        0 => (one, other),
        1..=5 => (one.clone(), one),
        6..=11 => (one.clone(), one.iter().map(|grey| grey.saturating_add(about).min(HIGHEST.max(*grey))).collect()),
        12 => (vec![0; count], other),
        13 => (one, vec![HIGHEST; count]),
        _ => one.iter().zip(&other).map(|(one, other)| (*one.min(other), *one.max(other))).unzip(),
    }
}

/// Sets a pair, the first or the last more often.
fn put(random: &mut Random, (lows, highs): &mut Pairs, [low, high]: [u8; 2]) {
    let any = random.below(lows.len());
    let place = random.pick(&[0, lows.len() - 1, any]);
    (lows[place], highs[place]) = (low, high);
}

/// A pair with a low above its high, neither above 240; mostly by one.
fn falling(random: &mut Random) -> [u8; 2] {
    let low = 1 + random.below(HIGHEST.into()) as u8;
    let far = random.below(low.into()) as u8;
    random.pick(&[[low, low - 1], [low, low - 1], [low, far], [HIGHEST, 0]])
}

/// A pair with a grey above 240: its high, both, or its low alone, so that it falls too.
fn high(random: &mut Random) -> [u8; 2] {
    let above = HIGHEST + 1 + random.below(15) as u8;
    let low = random.below(241) as u8;
    random.pick(&[[low, above], [low, HIGHEST + 1], [above, above], [above, low]])
}

/// Lows and highs around a map, at most so far from it.
fn around(random: &mut Random, greys: &[u8]) -> Pairs {
    let about = random.pick(&[0, 1, 10, 240]);
    let high = |grey: u8| grey.saturating_add(about).min(HIGHEST);
    greys.iter().map(|grey| (grey.saturating_sub(about), high(*grey))).unzip()
}

/// A sketch around a map, read at every level into buffers of just the needed lengths, and at one into longer ones.
pub fn sketch_tour(random: &mut Random, calls: &mut SideBySide, side: u32, greys: &[u8]) -> Result<(), Differs> {
    let (lows, highs) = around(random, greys);
    let text = write_sketch(side, &lows, &highs);
    for level in 0..=last_level(side) {
        quote(calls, side, &text, level, [greys.len(), greys.len(), caps_needed(side, level)])?;
    }
    let level = random.below(last_level(side) as usize + 1) as u32;
    quote(calls, side, &text, level, [greys.len() + 1, greys.len() + 2, caps_needed(side, level) + 3])
}

/// Sketch Quote of a sketch around a map: each refusal by itself, and with all that it looks for later. The spoilt
/// pairs are the first and the last, in either order.
pub fn refused_sketches(random: &mut Random, calls: &mut SideBySide, side: u32, greys: &[u8]) -> Result<(), Differs> {
    let pairs = around(random, greys);
    let (cells, last) = (greys.len(), last_level(side));
    let level = random.below(last as usize + 1) as u32;
    let caps = caps_needed(side, level);
    let good = write_sketch(side, &pairs.0, &pairs.1);
    for lent in [[cells - 1, cells, caps], [cells, cells - 1, caps], [cells, cells, caps - 1]] {
        quote(calls, side, &good, level, lent)?;
    }
    let (map, maps) = (write_map_text(side, greys), two_maps(side, &pairs.0, &pairs.1));
    for text in [&good[..good.len() - 1], &[&good[..], b"0"].concat(), &map, &maps] {
        quote(calls, side, text, level, [cells, cells, caps])?;
        quote(calls, side, text, last + 1, [cells, cells, 0])?;
    }
    for line in ["3", "0", "02", "1000"] {
        let text = [line.as_bytes(), &good[side.to_string().len()..good.len() - 1]].concat();
        quote(calls, side, &text, last + 1, [0, 0, 0])?;
    }
    // 4^16 and 4^32 are 0 in 32 bits and in 64
    for (level, caps) in [(last + 1, 0), (last + 1, caps), (16, caps), (32, caps), (u32::MAX, caps)] {
        quote(calls, side, &good, level, [cells, cells, caps])?;
    }
    for [fallen, raised] in [[0, cells - 1], [cells - 1, 0]] {
        let mut pairs = pairs.clone();
        [pairs.0[fallen], pairs.1[fallen]] = falling(random);
        spoilt(calls, side, &pairs, level)?;
        [pairs.0[raised], pairs.1[raised]] = high(random);
        spoilt(calls, side, &pairs, level)?;
    }
    Ok(())
}

/// Spoilt pairs, by themselves; without the level and the caps; then with the text cut, and with short greys as well.
fn spoilt(calls: &mut SideBySide, side: u32, (lows, highs): &Pairs, level: u32) -> Result<(), Differs> {
    let text = write_sketch(side, lows, highs);
    let (cells, past, cut) = (lows.len(), last_level(side) + 1, &text[..text.len() - 1]);
    quote(calls, side, &text, level, [cells, cells, caps_needed(side, level)])?;
    quote(calls, side, &text, past, [cells, cells, 0])?;
    quote(calls, side, cut, past, [cells, cells, 0])?;
    quote(calls, side, cut, past, [cells - 1, cells, 0])?;
    quote(calls, side, cut, past, [cells, cells - 1, 0])
}
