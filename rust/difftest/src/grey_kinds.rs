//! Of what kinds a Load, a Restore, a Map Text or a Lower Text is by its greys above 240, told from what was lent and
//! what was answered.

use reference::{Checkpoints, Progress, HIGHEST};

use crate::library::Outcome;
use crate::parts::{needed, total};
use crate::plate_kinds::{true_ones, Kind};

/// The kinds that have to be met.
pub const KINDS: [Kind; 28] = [
    "load: greys up to 240",
    "load: the first grey alone above 240",
    "load: the last grey alone above 240",
    "load: a grey of 255",
    "load: a grey above 240 behind the map",
    "load: a high grey, and no side",
    "load: a high grey, and no knit",
    "load: a high grey, and short greys",
    "load: a high grey, and a short pyramid",
    "load: a high grey, and a short sheet",
    "restore: greys up to 240",
    "restore: a grey above 240 behind the map",
    "restore: a high grey, and no side",
    "restore: a high grey, and no knit",
    "restore: a high grey, and short greys",
    "restore: a high grey, and a short pyramid",
    "restore: a high grey, and a short sheet",
    "restore: a high grey, and not sound",
    "restore: a high grey, and no such name",
    "map_text: a grey of 240",
    "map_text: a high grey, and a short buffer",
    "map_text: a high grey, and malformed",
    "lower_text: copied",
    "lower_text: lowered",
    "lower_text: places to spare for greys and text",
    "lower_text: the output one byte short",
    "lower_text: a short buffer, and no output",
    "lower_text: malformed, and no output",
];

fn is_high(greys: &[u8]) -> bool {
    greys.iter().any(|grey| *grey > HIGHEST)
}

/// The greys of a map of this side, or as many as there are; and those behind them.
fn of_map(side: u32, greys: &[u8]) -> (&[u8], &[u8]) {
    greys.split_at(needed(side).0.min(greys.len()))
}

/// The cells whose grey is too high.
fn high_cells(greys: &[u8]) -> Vec<usize> {
    (0..greys.len()).filter(|cell| greys[*cell] > HIGHEST).collect()
}

/// The kinds that a Load is of.
pub fn of_load(side: u32, greys: &[u8], code: u32) -> Vec<Kind> {
    let (map, behind) = of_map(side, greys);
    let (cells, high) = (high_cells(map), is_high(map));
    true_ones([
        ("load: greys up to 240", code == 0 && map.contains(&HIGHEST)),
        ("load: the first grey alone above 240", code == 12 && cells == [0]),
        ("load: the last grey alone above 240", code == 12 && cells == [map.len() - 1]),
        ("load: a grey of 255", code == 12 && map.contains(&255)),
        ("load: a grey above 240 behind the map", code == 0 && is_high(behind)),
        ("load: a high grey, and no side", code == 1 && high),
        ("load: a high grey, and no knit", code == 11 && high),
        ("load: a high grey, and short greys", code == 2 && high),
        ("load: a high grey, and a short pyramid", code == 3 && high),
        ("load: a high grey, and a short sheet", code == 4 && high),
    ])
}

/// The kinds that a Restore is of.
pub fn of_restore(progress: Progress, checkpoints: Checkpoints, name: u32, greys: &[u8], code: u32) -> Vec<Kind> {
    let (map, behind) = of_map(progress.side, greys);
    let high = is_high(map);
    let entry = checkpoints.kept.get((name as usize).wrapping_sub(1));
    let holes = entry.and_then(|entry| entry.checked_sub(1));
    true_ones([
        ("restore: greys up to 240", code == 0 && map.contains(&HIGHEST)),
        ("restore: a grey above 240 behind the map", code == 0 && is_high(behind)),
        ("restore: a high grey, and no side", code == 1 && high),
        ("restore: a high grey, and no knit", code == 11 && high),
        ("restore: a high grey, and short greys", code == 2 && high),
        ("restore: a high grey, and a short pyramid", code == 3 && high),
        ("restore: a high grey, and a short sheet", code == 4 && high),
        ("restore: a high grey, and not sound", code == 5 && high),
        ("restore: a high grey, and no such name", code == 12 && holes.is_none_or(|holes| holes > total(map))),
    ])
}

/// The numbers of a text behind its first line, as far as they are numbers.
pub fn numbers(text: &[u8]) -> Vec<u32> {
    let parts = text.split(|byte| [b',', 10].contains(byte)).skip(1);
    parts.filter_map(|part| std::str::from_utf8(part).ok()?.parse().ok()).collect()
}

/// Whether a text has a number that is a grey above 240.
pub fn is_high_text(text: &[u8]) -> bool {
    numbers(text).iter().any(|number| (241..=255).contains(number))
}

/// The kinds that a Map Text is of.
pub fn of_map_text(text: &[u8], code: u32) -> Vec<Kind> {
    true_ones([
        ("map_text: a grey of 240", code == 0 && numbers(text).contains(&240)),
        ("map_text: a high grey, and a short buffer", code == 2 && is_high_text(text)),
        ("map_text: a high grey, and malformed", code == 7 && is_high_text(text)),
    ])
}

/// The kinds that a Lower Text is of; both buffers are those afterwards.
pub fn of_lower_text(text: &[u8], greys: &[u8], out: &[u8], outcome: &Outcome) -> Vec<Kind> {
    let (code, length) = (outcome.code, outcome.values[0] as usize);
    let (done, same) = (code == 0, out.get(..length) == Some(text));
    let cells = numbers(text).len();
    true_ones([
        ("lower_text: copied", done && same),
        ("lower_text: lowered", done && !same),
        ("lower_text: places to spare for greys and text", done && greys.len() > cells && out.len() > length),
        ("lower_text: the output one byte short", code == 8 && out.len() + 1 == text.len()),
        ("lower_text: a short buffer, and no output", code == 2 && out.is_empty()),
        ("lower_text: malformed, and no output", code == 7 && out.is_empty()),
    ])
}
