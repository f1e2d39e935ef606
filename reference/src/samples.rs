//! Sample maps of side 32, drawn as the trade has them: a liner laid out flat, its rows from the brim to the closed
//! end, its columns once around the limb.

/// The side of the samples: the largest whose text the program `plate` takes.
pub const SIDE: u32 = 32;

/// No sample is darker than this.
const DARKEST: i64 = 240;

/// A round patch: its middle, its radius, and how much darker its middle is than the ground.
struct Patch {
    row: i64,
    column: i64,
    radius: i64,
    depth: i64,
}

/// The samples: a name, and the greys by row.
pub fn samples() -> [(&'static str, Vec<u8>); 3] {
    let patch = |row, column, radius, depth| Patch { row, column, radius, depth };
    [
        // a sweat map of a socket liner: the hollow behind the knee, both sides of the shin, the closed end all round
        (
            "socket-sweat",
            drawn(
                16,
                &[
                    patch(6, 16, 7, 190),
                    patch(15, 6, 6, 90),
                    patch(15, 26, 6, 90),
                    patch(31, 0, 9, 130),
                    patch(31, 11, 9, 130),
                    patch(31, 22, 9, 130),
                ],
            ),
        ),
        // the same limb with the shin spared: pale along the bone, even elsewhere
        (
            "spared-shin",
            drawn(110, &[patch(4, 0, 6, -80), patch(11, 0, 6, -100), patch(18, 0, 6, -100), patch(25, 0, 6, -80)]),
        ),
        // a sleeve with a damp band under its strap and one hot spot
        ("strap-band", banded(40, 12..17, 150, &patch(25, 20, 5, 180))),
    ]
}

/// A sketch of a sample, as it is told before anything is measured: the lows and the highs, so far below each grey and
/// so far above it, as far as a sample may go.
pub fn sketched(greys: &[u8], about: u8) -> (Vec<u8>, Vec<u8>) {
    let high = |grey: u8| i64::from(grey.saturating_add(about)).min(DARKEST) as u8;
    greys.iter().map(|grey| (grey.saturating_sub(about), high(*grey))).unzip()
}

/// A ground with patches on it.
fn drawn(ground: i64, patches: &[Patch]) -> Vec<u8> {
    by_cell(|row, column| ground + patches.iter().map(|patch| shade(patch, row, column)).sum::<i64>())
}

/// A ground with a band of rows and one patch on it.
fn banded(ground: i64, rows: std::ops::Range<i64>, depth: i64, patch: &Patch) -> Vec<u8> {
    by_cell(|row, column| ground + if rows.contains(&row) { depth } else { 0 } + shade(patch, row, column))
}

/// What a patch adds to a cell: all its depth in the middle, nothing from its radius on.
fn shade(patch: &Patch, row: i64, column: i64) -> i64 {
    let around = (column - patch.column).rem_euclid(i64::from(SIDE));
    let across = around.min(i64::from(SIDE) - around);
    let down = row - patch.row;
    let area = patch.radius * patch.radius;
    patch.depth * (area - across * across - down * down).max(0) / area
}

/// The greys that a rule gives to each cell, cut to what a sample may have.
fn by_cell(rule: impl Fn(i64, i64) -> i64) -> Vec<u8> {
    let mut greys = Vec::new();
    for row in 0..i64::from(SIDE) {
        for column in 0..i64::from(SIDE) {
            greys.push(rule(row, column).clamp(0, DARKEST) as u8);
        }
    }
    greys
}
