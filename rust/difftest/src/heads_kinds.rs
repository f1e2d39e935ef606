//! Of what kinds a call of Two Heads is, told from what was lent and what was answered.

use reference::HIGHEST;

use crate::library::Outcome;
use crate::parts::needed;
use crate::plate_kinds::{true_ones, Kind};
use crate::side_by_side::{Lent, Sheet};
use crate::wrong_heads::told_apart;

/// The kinds that have to be met, besides those of wrong rules.
pub const KINDS: [Kind; 25] = [
    "two_heads: no hole",
    "two_heads: a hole in some cells",
    "two_heads: a debt above 0",
    "two_heads: a debt below 0",
    "two_heads: half a hole owed in the end, or more",
    "two_heads: a grey above 240 behind the map",
    "two_heads: places to spare everywhere",
    "two_heads: no side, and no knit",
    "two_heads: no side, and nothing lent",
    "two_heads: a small side by itself",
    "two_heads: a small side, and no knit",
    "two_heads: a small side, and nothing lent",
    "two_heads: a small side, and a high grey",
    "two_heads: knit 2",
    "two_heads: knit 2^32 - 1",
    "two_heads: no knit, and nothing lent",
    "two_heads: no knit, and a high grey",
    "two_heads: short greys, a high one among them",
    "two_heads: short greys, and nothing else lent",
    "two_heads: a short pyramid, and a high grey",
    "two_heads: a short pyramid, and a short sheet",
    "two_heads: the serials alone one place short",
    "two_heads: the order alone one place short",
    "two_heads: a short sheet, and a high grey",
    "two_heads: the last grey alone above 240",
];

/// The largest side on which the wrong rules are tried.
const TRIED: u32 = 32;

/// The kinds that a call is of; the sheet is that afterwards.
pub fn of_two_heads(side: u32, knit: u32, greys: &[u8], sheet: &Sheet, lent: Lent, outcome: &Outcome) -> Vec<Kind> {
    match outcome.code {
        0 => done(side, knit, greys, sheet, lent, outcome),
        1 | 14 | 11 => unknown(side, knit, greys, lent, outcome.code),
        code => short_or_high(side, greys, lent, code),
    }
}

/// One that was answered.
fn done(side: u32, knit: u32, greys: &[u8], sheet: &Sheet, lent: Lent, outcome: &Outcome) -> Vec<Kind> {
    let (cells, pyramid) = needed(side);
    let (holes, debt) = (outcome.values[3] as usize, outcome.values[4] as i64);
    let spare = greys.len() > cells && lent.pyramid > pyramid && lent.serials > cells && lent.order > cells;
    let mut kinds = true_ones([
        ("two_heads: no hole", holes == 0),
        ("two_heads: a hole in some cells", (1..cells).contains(&holes)),
        ("two_heads: a debt above 0", debt > 0),
        ("two_heads: a debt below 0", debt < 0),
        ("two_heads: half a hole owed in the end, or more", debt >= 32_640),
        ("two_heads: a grey above 240 behind the map", is_high(&greys[cells..])),
        ("two_heads: places to spare everywhere", spare),
    ]);
    if side <= TRIED {
        kinds.extend(told_apart(side, knit, &greys[..cells], &sheet.order[..holes]));
    }
    kinds
}

fn is_high(greys: &[u8]) -> bool {
    greys.iter().any(|grey| *grey > HIGHEST)
}

/// Refused with 1, 14 or 11.
fn unknown(side: u32, knit: u32, greys: &[u8], lent: Lent, code: u32) -> Vec<Kind> {
    let (no_side, small, no_knit) = (code == 1, code == 14, code == 11);
    let nothing = greys.is_empty() && lent.pyramid == 0 && lent.serials == 0 && lent.order == 0;
    let (cells, pyramid) = needed(side);
    let whole = greys.len() >= cells && lent.pyramid >= pyramid && lent.serials >= cells && lent.order >= cells;
    let high = is_high(&greys[..cells.min(greys.len())]);
    true_ones([
        ("two_heads: no side, and no knit", no_side && knit > 1),
        ("two_heads: no side, and nothing lent", no_side && nothing),
        ("two_heads: a small side by itself", small && knit <= 1 && whole && !high),
        ("two_heads: a small side, and no knit", small && knit > 1),
        ("two_heads: a small side, and nothing lent", small && nothing),
        ("two_heads: a small side, and a high grey", small && knit <= 1 && whole && high),
        ("two_heads: knit 2", no_knit && knit == 2),
        ("two_heads: knit 2^32 - 1", no_knit && knit == u32::MAX),
        ("two_heads: no knit, and nothing lent", no_knit && nothing),
        ("two_heads: no knit, and a high grey", no_knit && whole && high),
    ])
}

/// Refused with 2, 3, 4 or 12.
fn short_or_high(side: u32, greys: &[u8], lent: Lent, code: u32) -> Vec<Kind> {
    let (cells, pyramid) = needed(side);
    let high: Vec<usize> = (0..cells.min(greys.len())).filter(|cell| greys[*cell] > HIGHEST).collect();
    let (serials, order) = (lent.serials < cells, lent.order < cells);
    let one_short = |length: usize| length + 1 == cells;
    true_ones([
        ("two_heads: short greys, a high one among them", code == 2 && !high.is_empty()),
        ("two_heads: short greys, and nothing else lent", code == 2 && lent.pyramid == 0 && lent.order == 0),
        ("two_heads: a short pyramid, and a high grey", code == 3 && !high.is_empty()),
        ("two_heads: a short pyramid, and a short sheet", code == 3 && lent.pyramid < pyramid && (serials || order)),
        ("two_heads: the serials alone one place short", code == 4 && one_short(lent.serials) && !order),
        ("two_heads: the order alone one place short", code == 4 && one_short(lent.order) && !serials),
        ("two_heads: a short sheet, and a high grey", code == 4 && !high.is_empty()),
        ("two_heads: the last grey alone above 240", code == 12 && high == [cells - 1]),
    ])
}
