//! Of what kinds a Keep or a Restore is, told from what was lent and what was answered.

use reference::{Checkpoints, Progress};

use crate::parts::{needed, total};
use crate::plate_kinds::{true_ones, Kind};

/// The kinds that have to be met.
pub const KINDS: [Kind; 27] = [
    "keep: no side",
    "keep: no side, and no name",
    "keep: name 0",
    "keep: name 9",
    "keep: a larger number than 9",
    "keep: no hole",
    "keep: more holes than cells",
    "keep: 2^32 - 1 holes",
    "keep: over an earlier count",
    "restore: no side",
    "restore: no side, and no such name",
    "restore: the greys one place short",
    "restore: the greys short, and no such name",
    "restore: the pyramid short, and no such name",
    "restore: the sheet short, and no such name",
    "restore: not sound, and no such name",
    "restore: name 0",
    "restore: name 9",
    "restore: an empty name",
    "restore: one hole past the total",
    "restore: 2^32 holes or more",
    "restore: no hole",
    "restore: as many holes as the total",
    "restore: back",
    "restore: forwards",
    "restore: longer greys",
    "restore: greys that were not loaded",
];

/// The kinds that a Keep is of.
pub fn of_keep(progress: Progress, checkpoints: Checkpoints, name: u32, code: u32) -> Vec<Kind> {
    let done = code == 0;
    let earlier = entry(checkpoints, name).unwrap_or(0);
    true_ones([
        ("keep: no side", code == 1 && (1..=8).contains(&name)),
        ("keep: no side, and no name", code == 1 && !(1..=8).contains(&name)),
        ("keep: name 0", code == 10 && name == 0),
        ("keep: name 9", code == 10 && name == 9),
        ("keep: a larger number than 9", code == 10 && name > 9),
        ("keep: no hole", done && progress.dots == 0),
        ("keep: more holes than cells", done && progress.dots as usize > needed(progress.side).0),
        ("keep: 2^32 - 1 holes", done && progress.dots == u32::MAX),
        ("keep: over an earlier count", done && earlier > 0 && earlier != u64::from(progress.dots) + 1),
    ])
}

/// What stands under a name.
fn entry(checkpoints: Checkpoints, name: u32) -> Option<u64> {
    checkpoints.kept.get((name as usize).wrapping_sub(1)).copied()
}

/// The kinds that a Restore is of; the top is the pyramid's before the call.
pub fn of_restore(
    progress: Progress,
    checkpoints: Checkpoints,
    name: u32,
    greys: &[u8],
    top: Option<i64>,
    code: u32,
) -> Vec<Kind> {
    let (cells, _) = needed(progress.side);
    let first: &[u8] = greys.get(..cells).unwrap_or(greys);
    let holes = entry(checkpoints, name).and_then(|entry| entry.checked_sub(1));
    let (done, wrong_name) = (code == 0, holes.is_none_or(|holes| holes > total(first)));
    let loaded: i64 = 256 * first.iter().map(|grey| i64::from(*grey)).sum::<i64>();
    let before = u64::from(progress.dots);
    true_ones([
        ("restore: no side", code == 1),
        ("restore: no side, and no such name", code == 1 && wrong_name),
        ("restore: the greys one place short", code == 2 && greys.len() + 1 == cells),
        ("restore: the greys short, and no such name", code == 2 && wrong_name),
        ("restore: the pyramid short, and no such name", code == 3 && wrong_name),
        ("restore: the sheet short, and no such name", code == 4 && wrong_name),
        ("restore: not sound, and no such name", code == 5 && wrong_name),
        ("restore: name 0", code == 10 && name == 0),
        ("restore: name 9", code == 10 && name == 9),
        ("restore: an empty name", code == 10 && entry(checkpoints, name) == Some(0)),
        ("restore: one hole past the total", code == 10 && holes == Some(total(first) + 1)),
        ("restore: 2^32 holes or more", code == 10 && holes >= Some(1 << 32)),
        ("restore: no hole", done && holes == Some(0)),
        ("restore: as many holes as the total", done && holes == Some(total(first)) && holes > Some(0)),
        ("restore: back", done && holes < Some(before)),
        ("restore: forwards", done && holes > Some(before)),
        ("restore: longer greys", done && greys.len() > cells),
        ("restore: greys that were not loaded", done && top != Some(loaded - 65_280 * i64::from(progress.dots))),
    ])
}
