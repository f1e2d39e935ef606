//! Maps for two heads, and calls of Two Heads that are refused.

use reference::{power, HIGHEST};
use rulmedei::list_room;

use crate::parts::{blank, lent, low_greys, needed, noise, whole};
use crate::random::Random;
use crate::side_by_side::{Differs, Lent, SideBySide};

/// The cells along a macroblock.
const WIDE: usize = 8;

/// Two Heads into buffers of any length and content, with greys that now and then are too many, too few or too high.
pub fn heads_case(random: &mut Random, calls: &mut SideBySide, side: u32) -> Result<(), Differs> {
    let mut greys = map(random, side);
    let length = if random.once_in(4) { random.length(greys.len()) } else { greys.len() };
    greys.resize(length, random.pick(&[0, 255]));
    if random.once_in(8) && length > 0 {
        let any = random.below(length);
        greys[random.pick(&[0, length - 1, any])] = HIGHEST + 1 + random.below(15) as u8;
    }
    let mut sheet = noise(random, side);
    let lent = lent(random, side, &sheet);
    calls.two_heads(side, random.knit(), &greys, &mut sheet, lent)?;
    Ok(())
}

/// The side of a case drawn at random: mostly 16, since larger maps take long.
pub fn heads_side(random: &mut Random) -> u32 {
    match random.below(32) {
        0..=3 => random.side(),
        4 => 32,
        _ => 16,
    }
}

/// A map, of which on large sides only a part is dark, in buffers with a place to spare, and a grey behind the map that
/// is too high; then its list, and the sums of Levels. Then each of the small maps.
pub fn heads_tour(
    random: &mut Random,
    calls: &mut SideBySide,
    side: u32,
    knit: u32,
    greys: &[u8],
) -> Result<(), Differs> {
    let mut lent = if side > 64 { part_of(random, side, greys) } else { greys.to_vec() };
    lent.push(255);
    let mut sheet = blank(side, 1);
    let all = whole(&sheet);
    let end = calls.two_heads(side, knit, &lent, &mut sheet, all)?;
    if end.code == 0 {
        calls.drill_list(end.progress(), &sheet, all, &mut vec![46; list_room(side)])?;
        calls.levels(side, &lent, &sheet.serials)?;
    }
    if side == 16 {
        small_maps(calls, knit)?;
    }
    Ok(())
}

fn small_maps(calls: &mut SideBySide, knit: u32) -> Result<(), Differs> {
    for dark in SMALL {
        let mut sheet = blank(16, 0);
        let all = whole(&sheet);
        calls.two_heads(16, knit, &dark_map(dark), &mut sheet, all)?;
    }
    Ok(())
}

/// Maps of side 16 that are told by their dark cells: row, column and grey. None that is dark enough; cells that are
/// inside a macroblock of one offset alone; equal blocks, equal cells and macroblocks of one round; a cell on two sides
/// of the rim, one of them the map's edge; a macroblock that comes to 32,640, and one that comes to 32,639.
const SMALL: [&[(usize, usize, u8)]; 7] = [
    &[(3, 3, 127)],
    &[(2, 2, 240), (2, 7, 239), (7, 2, 238), (7, 7, 237)],
    &[(2, 7, 238), (7, 2, 239), (7, 7, 240)],
    &[(0, 3, 128), (1, 9, 64), (1, 13, 64), (9, 1, 64), (9, 2, 64)],
    &[(0, 7, 127), (2, 2, 100), (15, 8, 240)],
    &[(3, 3, 237), (6, 6, 129)],
    &[(3, 12, 239), (6, 9, 131), (12, 3, 229)],
];

fn dark_map(dark: &[(usize, usize, u8)]) -> Vec<u8> {
    let mut greys = vec![0; 256];
    for (row, column, grey) in dark {
        greys[16 * row + column] = *grey;
    }
    greys
}

/// Each refusal with what is looked for later, and with a grey that is too high; on smaller sides also by itself.
pub fn refused_heads(calls: &mut SideBySide, side: u32, knit: u32, greys: &[u8]) -> Result<(), Differs> {
    let (cells, pyramid) = needed(side);
    let [mut first, mut last] = [greys.to_vec(), greys.to_vec()];
    first[0] = HIGHEST + 1;
    last[cells - 1] = HIGHEST + 1;
    let none = Lent { pyramid: 0, serials: 0, order: 0 };
    let all = Lent { pyramid, serials: cells, order: cells };
    let (short_serials, short_order) = (Lent { serials: cells - 1, ..all }, Lent { order: cells - 1, ..all });
    let together = [
        (side + 1, 2, &first[..0], none),
        (side, 2, &first[..0], none),
        (side, knit, &first[..cells - 1], none),
        (side, knit, &first[..], Lent { pyramid: pyramid - 1, ..none }),
        (side, knit, &first[..], short_serials),
        (side, knit, &first[..], short_order),
        (side, knit, &last[..], all),
    ];
    let alone = [
        (side, 2, &last[..], all),
        (side, u32::MAX, greys, all),
        (side, knit, &greys[..cells - 1], all),
        (side, knit, greys, Lent { pyramid: pyramid - 1, ..all }),
        (side, knit, greys, short_serials),
        (side, knit, greys, short_order),
        (side, knit, &first[..], all),
    ];
    let asked = together.iter().chain(alone.iter().filter(|_| side <= 64));
    let mut sheet = blank(side, 1);
    for (side, knit, greys, lent) in asked {
        calls.two_heads(*side, *knit, greys, &mut sheet, *lent)?;
    }
    Ok(())
}

/// A map of a side; that of side 4 for one that isn't one of the eight.
fn map(random: &mut Random, side: u32) -> Vec<u8> {
    let cells = needed(side).0;
    match random.below(4) {
        0 if power(side).is_ok_and(|power| power >= 4) => just_half(random, side as usize),
        1 => few_cells(random, cells),
        _ if cells > 4_096 => few_cells(random, cells),
        _ => low_greys(random, cells),
    }
}

/// Some cells of one grey or another, in the first rows.
fn few_cells(random: &mut Random, cells: usize) -> Vec<u8> {
    let mut greys = vec![0; cells];
    for _ in 0..1 + random.below(12) {
        greys[random.below(cells.min(4_096))] = random.pick(&[64, 64, 100, 127, 128, 200, 240]);
    }
    greys
}

/// A cell beside a corner of a macroblock that begins at (4, 4), or some eights further on, and one in it: on plain
/// cloth the macroblock comes to just half a hole in its round, or now and then to one grey less.
fn just_half(random: &mut Random, side: usize) -> Vec<u8> {
    let corners = side / WIDE - 1;
    let [top, left] = [0, 1].map(|_| 4 + WIDE * random.below(corners));
    let beyond = 18 + 12 * random.below(5);
    let inside = 127 + beyond.div_ceil(12) - usize::from(random.once_in(4));
    let mut greys = vec![0; side * side];
    let [low, right] = [0, 1].map(|_| random.once_in(2));
    // the cell beside the corner, and the one in the same quarter of the macroblock
    let place = |first: usize, far: bool| if far { (first + WIDE, first + 5) } else { (first - 1, first + 2) };
    let ((row, inner_row), (column, inner_column)) = (place(top, low), place(left, right));
    greys[row * side + column] = 255 - beyond as u8;
    greys[inner_row * side + inner_column] = inside as u8;
    greys
}

/// The greys of 24 by 24 cells somewhere on the map, and 0 elsewhere.
fn part_of(random: &mut Random, side: u32, greys: &[u8]) -> Vec<u8> {
    let (side, wide) = (side as usize, 24);
    let [top, left] = [0, 1].map(|_| random.below(side - wide + 1));
    let inside =
        |cell: usize| (top..top + wide).contains(&(cell / side)) && (left..left + wide).contains(&(cell % side));
    greys.iter().enumerate().map(|(cell, grey)| if inside(cell) { *grey } else { 0 }).collect()
}
