//! Of what kinds a Sketch Quote is, told from the text, what was lent and what was answered; and a Map Text that is
//! given a sketch.

use reference::{cell_count, map_text, power, sketch_quote, Refusal, HIGHEST, SIDES};

use crate::grey_kinds::{is_high_text, numbers};
use crate::library::Outcome;
use crate::parts::needed;
use crate::plate_kinds::{true_ones, Kind};
use crate::side_by_side::Quoted;

/// The kinds that have to be met.
pub const KINDS: [Kind; 41] = [
    "sketch_quote: all pairs equal",
    "sketch_quote: a pair of 0 and 240",
    "sketch_quote: a high above the next low",
    "sketch_quote: two totals",
    "sketch_quote: a cap below the cells of its square",
    "sketch_quote: a cap of all cells of its square, not of one",
    "sketch_quote: level 0",
    "sketch_quote: the last level",
    "sketch_quote: places to spare everywhere",
    "sketch_quote: no side, and malformed",
    "sketch_quote: a first line that is none, and no side",
    "sketch_quote: the lows alone one place short",
    "sketch_quote: the highs alone one place short",
    "sketch_quote: short lows, and malformed",
    "sketch_quote: short highs, and malformed",
    "sketch_quote: short greys, and a high grey",
    "sketch_quote: short greys, and a falling pair",
    "sketch_quote: short greys, no level and no caps",
    "sketch_quote: the text of a map",
    "sketch_quote: as many numbers as a sketch has, in twice as many lines",
    "sketch_quote: lines of another side",
    "sketch_quote: malformed, and a high grey",
    "sketch_quote: malformed, and a falling pair",
    "sketch_quote: malformed, no level and no caps",
    "sketch_quote: a low alone above 240",
    "sketch_quote: a high alone above 240",
    "sketch_quote: the first pair alone above 240",
    "sketch_quote: the last pair alone above 240",
    "sketch_quote: a high grey, and a falling pair before it",
    "sketch_quote: a high grey, and a falling pair behind it",
    "sketch_quote: a high grey, no level and no caps",
    "sketch_quote: the first pair alone falls",
    "sketch_quote: the last pair alone falls",
    "sketch_quote: a pair falls by one",
    "sketch_quote: a falling pair, no level and no caps",
    "sketch_quote: the level behind the last",
    "sketch_quote: a level of 2^16 or more",
    "sketch_quote: no level, and no caps",
    "sketch_quote: the caps one place short",
    "sketch_quote: no caps",
    "map_text: a sketch",
];

/// The pairs of a text, as far as its numbers go.
fn pairs(text: &[u8]) -> Vec<[u32; 2]> {
    numbers(text).chunks_exact(2).map(|pair| [pair[0], pair[1]]).collect()
}

/// The places of the pairs that have something.
fn places(pairs: &[[u32; 2]], has: impl Fn([u32; 2]) -> bool) -> Vec<usize> {
    (0..pairs.len()).filter(|place| has(pairs[*place])).collect()
}

fn falls([low, high]: [u32; 2]) -> bool {
    low > high
}

fn is_high(pair: [u32; 2]) -> bool {
    pair.iter().any(|grey| *grey > HIGHEST.into())
}

/// The number that the first line of a text says, as far as it is one.
fn said_side(text: &[u8]) -> Option<u32> {
    let line = text.split(|byte| *byte == 10).next()?;
    std::str::from_utf8(line).ok()?.parse().ok()
}

/// The kinds that a Sketch Quote is of; the buffers are those afterwards.
pub fn of_sketch_quote(text: &[u8], level: u32, quoted: &Quoted, lent: [usize; 3], outcome: &Outcome) -> Vec<Kind> {
    match outcome.code {
        0 => done(level, quoted, lent, outcome),
        2 => short(text, level, lent),
        7 | 1 => malformed(text, level, lent, outcome.code),
        12 | 13 => spoilt(text, level, lent, outcome.code),
        code => without_room(text, level, lent, code),
    }
}

/// One that was answered.
fn done(level: u32, quoted: &Quoted, lent: [usize; 3], outcome: &Outcome) -> Vec<Kind> {
    let side = outcome.values[0] as u32;
    let (cells, squares, wide) = (needed(side).0, 4usize.pow(level), side >> level);
    let (lows, highs, caps) = (&quoted.lows[..cells], &quoted.highs[..cells], &quoted.caps[..squares]);
    let apart = highs.iter().zip(&lows[1..]).any(|(high, next)| high > next);
    let spare = lent[0] > cells && lent[1] > cells && lent[2] > squares;
    true_ones([
        ("sketch_quote: all pairs equal", lows == highs),
        ("sketch_quote: a pair of 0 and 240", lows.iter().zip(highs).any(|pair| pair == (&0, &HIGHEST))),
        ("sketch_quote: a high above the next low", apart),
        ("sketch_quote: two totals", outcome.values[1] < outcome.values[2]),
        ("sketch_quote: a cap below the cells of its square", caps.iter().any(|cap| *cap < wide * wide)),
        ("sketch_quote: a cap of all cells of its square, not of one", wide > 1 && caps.contains(&(wide * wide))),
        ("sketch_quote: level 0", level == 0),
        ("sketch_quote: the last level", wide == 1),
        ("sketch_quote: places to spare everywhere", spare),
    ])
}

/// Whether a level, and any caps, are not there either.
fn nothing_behind(text: &[u8], level: u32, caps: usize) -> bool {
    let last = said_side(text).and_then(|side| power(side).ok());
    caps == 0 && last.is_some_and(|last| level > last)
}

/// What the text is refused for where there is room for all.
fn refused(text: &[u8]) -> Option<u32> {
    let (mut lows, mut highs) = (vec![0; 65_536], vec![0; 65_536]);
    sketch_quote(text, 0, &mut lows, &mut highs, &mut [0]).err().map(Refusal::number)
}

/// Refused with 2.
fn short(text: &[u8], level: u32, [lows, highs, caps]: [usize; 3]) -> Vec<Kind> {
    let cells = said_side(text).map_or(0, |side| needed(side).0);
    let (pairs, broken) = (pairs(text), refused(text) == Some(7));
    true_ones([
        ("sketch_quote: the lows alone one place short", lows + 1 == cells && highs >= cells),
        ("sketch_quote: the highs alone one place short", highs + 1 == cells && lows >= cells),
        ("sketch_quote: short lows, and malformed", lows < cells && broken),
        ("sketch_quote: short highs, and malformed", highs < cells && broken),
        ("sketch_quote: short greys, and a high grey", is_high_text(text)),
        ("sketch_quote: short greys, and a falling pair", pairs.into_iter().any(falls)),
        ("sketch_quote: short greys, no level and no caps", nothing_behind(text, level, caps)),
    ])
}

/// Refused with 7, or with 1.
fn malformed(text: &[u8], level: u32, lent: [usize; 3], code: u32) -> Vec<Kind> {
    let (pairs, said, count) = (pairs(text), said_side(text), numbers(text).len());
    let broken = code == 7;
    let of_side = broken && said.is_some_and(|side| power(side).is_ok());
    let lines = text.iter().filter(|byte| **byte == 10).count();
    let twice = |side: u32| count == 2 * cell_count(side) && lines == 2 * side as usize + 1;
    let of_other = SIDES.iter().any(|side| Some(*side) != said && count == 2 * cell_count(*side));
    true_ones([
        ("sketch_quote: no side, and malformed", code == 1 && !text.ends_with(b"\n")),
        ("sketch_quote: a first line that is none, and no side", broken && text.starts_with(b"1000\n")),
        ("sketch_quote: the text of a map", broken && map_text(text, &mut vec![0; 65_536]).is_ok()),
        ("sketch_quote: as many numbers as a sketch has, in twice as many lines", of_side && said.is_some_and(twice)),
        ("sketch_quote: lines of another side", of_side && of_other),
        ("sketch_quote: malformed, and a high grey", of_side && is_high_text(text)),
        ("sketch_quote: malformed, and a falling pair", of_side && pairs.into_iter().any(falls)),
        ("sketch_quote: malformed, no level and no caps", broken && nothing_behind(text, level, lent[2])),
    ])
}

/// Refused with 12, or with 13: the text is that of a side.
fn spoilt(text: &[u8], level: u32, lent: [usize; 3], code: u32) -> Vec<Kind> {
    let pairs = pairs(text);
    let last = pairs.len() - 1;
    let (high, fallen) = (places(&pairs, is_high), places(&pairs, |pair| falls(pair) && !is_high(pair)));
    let alone = |place: usize, [low, high]: [bool; 2]| pairs[place].map(|grey| grey > HIGHEST.into()) == [low, high];
    let before = fallen.first().is_some_and(|place| Some(place) < high.first());
    let (above, down) = (code == 12, code == 13);
    let nothing = nothing_behind(text, level, lent[2]);
    true_ones([
        ("sketch_quote: a low alone above 240", above && high.iter().any(|place| alone(*place, [true, false]))),
        ("sketch_quote: a high alone above 240", above && high.iter().all(|place| alone(*place, [false, true]))),
        ("sketch_quote: the first pair alone above 240", above && high == [0]),
        ("sketch_quote: the last pair alone above 240", above && high == [last]),
        ("sketch_quote: a high grey, and a falling pair before it", above && before),
        ("sketch_quote: a high grey, and a falling pair behind it", above && fallen.last() > high.last()),
        ("sketch_quote: a high grey, no level and no caps", above && nothing),
        ("sketch_quote: the first pair alone falls", down && fallen == [0]),
        ("sketch_quote: the last pair alone falls", down && fallen == [last]),
        ("sketch_quote: a pair falls by one", down && pairs.iter().all(|[low, high]| *low <= high + 1)),
        ("sketch_quote: a falling pair, no level and no caps", down && nothing),
    ])
}

/// Refused with 6, or with 8.
fn without_room(text: &[u8], level: u32, lent: [usize; 3], code: u32) -> Vec<Kind> {
    let last = said_side(text).and_then(|side| power(side).ok()).unwrap_or(0);
    let (no_level, no_room) = (code == 6, code == 8);
    true_ones([
        ("sketch_quote: the level behind the last", no_level && level == last + 1 && lent[2] > 0),
        ("sketch_quote: a level of 2^16 or more", no_level && level >= 1 << 16),
        ("sketch_quote: no level, and no caps", no_level && lent[2] == 0),
        ("sketch_quote: the caps one place short", no_room && lent[2] + 1 == 4usize.pow(level)),
        ("sketch_quote: no caps", no_room && lent[2] == 0),
    ])
}

/// The kinds that a Map Text is of.
pub fn of_map_text(text: &[u8], code: u32) -> Vec<Kind> {
    true_ones([("map_text: a sketch", code == 7 && refused(text).is_none())])
}
