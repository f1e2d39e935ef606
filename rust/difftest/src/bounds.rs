//! Sheets that no Load made, with all sums right, in which one cell owes just as much, or as little, as a sound sheet
//! allows, or one unit beyond it (S 4.6, S 4.7): inside the map, on a side and in a corner.

use reference::{entry, neighbours, renew_all, to_quarters, Checkpoints, Neighbour, Progress, PLAIN, RIBBED};
use rulmedei::list_room;

use crate::parts::{last_level, needed, whole};
use crate::side_by_side::{Differs, Sheet, SideBySide};

/// The sides on which all of it is quick.
const QUICK: [u32; 5] = [2, 4, 8, 16, 32];

/// A cell, by its row and column.
type Cell = (usize, usize);

/// What one cell of a sheet is like: whether it is burnt, which of its neighbours are, what it owes with so many of
/// them burnt, and whether the sheet is sound.
struct Probe {
    what: &'static str,
    burnt: bool,
    near: fn(Cell, &Neighbour) -> bool,
    owes: fn(i64) -> i64,
    sound: bool,
}

const fn probe(what: &'static str, burnt: bool, owes: fn(i64) -> i64, sound: bool) -> Probe {
    Probe { what, burnt, near: |_, _| true, owes, sound }
}

/// The cells with all their neighbours burnt, then those with some of them burnt, or none.
const PROBES: [Probe; 16] = [
    probe("a burnt cell that owes 0", true, |_| 0, true),
    probe("a burnt cell that owes 1", true, |_| 1, false),
    probe("an unburnt cell that owes 65,280", false, |_| 65_280, true),
    probe("an unburnt cell that owes 65,281", false, |_| 65_281, false),
    probe("an unburnt cell that owes the least, all around it burnt", false, least, true),
    probe("an unburnt cell that owes one less, all around it burnt", false, one_less, false),
    probe("a burnt cell that owes the least, all around it burnt", true, least, true),
    probe("a burnt cell that owes one less, all around it burnt", true, one_less, false),
    straight(probe("an unburnt cell that owes the least, the straight ones burnt", false, least, true)),
    straight(probe("an unburnt cell that owes one less, the straight ones burnt", false, one_less, false)),
    diagonal(probe("a burnt cell that owes the least, the diagonal ones burnt", true, least, true)),
    diagonal(probe("a burnt cell that owes one less, the diagonal ones burnt", true, one_less, false)),
    none(probe("an unburnt cell that owes 0, none around it burnt", false, |_| 0, true)),
    none(probe("an unburnt cell that owes -1, none around it burnt", false, |_| -1, false)),
    none(probe("a burnt cell that owes 0, none around it burnt", true, |_| 0, true)),
    none(probe("a burnt cell that owes -1, none around it burnt", true, |_| -1, false)),
];

/// The least that a cell may owe with so many neighbours burnt.
fn least(near: i64) -> i64 {
    -65_280 * near
}

fn one_less(near: i64) -> i64 {
    least(near) - 1
}

const fn straight(probe: Probe) -> Probe {
    Probe { near: is_straight, ..probe }
}

const fn diagonal(probe: Probe) -> Probe {
    Probe { near: is_diagonal, ..probe }
}

const fn none(probe: Probe) -> Probe {
    Probe { near: |_, _| false, ..probe }
}

fn is_straight(cell: Cell, near: &Neighbour) -> bool {
    near.row == cell.0 || near.column == cell.1
}

fn is_diagonal(cell: Cell, near: &Neighbour) -> bool {
    !is_straight(cell, near)
}

/// Each kind of cell at each place of each side, on either knit.
pub fn bounds_cases(calls: &mut SideBySide) -> Result<(), Differs> {
    for side in QUICK {
        for (place, cell) in places(side as usize) {
            for probe in &PROBES {
                for knit in [PLAIN, RIBBED] {
                    judged(calls, Progress { side, dots: 0, knit }, cell, probe)
                        .map_err(|what| format!("{} {place} at {cell:?} of side {side}: {what}", probe.what))?;
                }
                calls.coverage.note_fixed((probe.what, place, side));
            }
        }
    }
    Ok(())
}

/// The corners; on larger sides also cells on each side of the map, and inside it.
fn places(side: usize) -> Vec<(&'static str, Cell)> {
    let last = side - 1;
    let mut places = [(0, 0), (0, last), (last, 0), (last, last)].map(|cell| ("in a corner", cell)).to_vec();
    if side > 2 {
        places.extend([(0, 1), (1, 0), (last, side / 2), (side / 2, last)].map(|cell| ("on a side", cell)));
        places.extend([(1, 1), (side / 2, side / 2), (last - 1, 1)].map(|cell| ("inside", cell)));
    }
    places
}

/// The four calls that judge a sheet: they take it, or refuse it with 5.
fn judged(calls: &mut SideBySide, record: Progress, cell: Cell, probe: &Probe) -> Result<(), Differs> {
    let (record, older) = sheet(record, cell, probe);
    let sheet = Sheet { pyramid: to_quarters(record.side, &older.pyramid), ..older.clone() };
    let all = whole(&sheet);
    let mut second = vec![-7; sheet.pyramid.len()];
    let room = second.len();
    // no hole is kept, and the map is white
    let value = Checkpoints { kept: [1; 8] };
    let white = vec![0; sheet.order.len()];
    let outcomes = [
        calls.advance(record, 0, &mut sheet.clone(), all)?,
        calls.advance(record, u32::MAX, &mut sheet.clone(), all)?,
        calls.drill_list(record, &sheet, all, &mut vec![46; list_room(record.side)])?,
        calls.restore(record, value, 1, &white, &mut sheet.clone(), all)?,
        calls.relay(record, &older, all, &mut second, room)?,
    ];
    let codes = outcomes.map(|outcome| outcome.code);
    let right = |code: &u32| if probe.sound { matches!(code, 0 | 100) } else { *code == 5 };
    if codes.iter().all(right) {
        return Ok(());
    }
    Err(format!("{codes:?}"))
}

/// The sheet, row after row, and its record: the burnt cells have serials from 1 on, and all others owe nothing.
fn sheet(record: Progress, cell: Cell, probe: &Probe) -> (Progress, Sheet) {
    let side = record.side as usize;
    let (cells, length) = needed(record.side);
    let near: Vec<Neighbour> =
        neighbours(record.side, cell.0, cell.1).into_iter().filter(|near| (probe.near)(cell, near)).collect();
    let mut burnt: Vec<usize> = near.iter().map(|near| near.row * side + near.column).collect();
    if probe.burnt {
        burnt.push(cell.0 * side + cell.1);
    }
    let mut sheet = Sheet { pyramid: vec![0; length], serials: vec![0; cells], order: vec![0; cells] };
    for (before, burnt) in burnt.iter().enumerate() {
        sheet.serials[*burnt] = before as u32 + 1;
        sheet.order[before] = *burnt as u32;
    }
    let level = last_level(record.side);
    sheet.pyramid[entry(level, cell.0, cell.1)] = (probe.owes)(near.len() as i64);
    renew_all(level, &mut sheet.pyramid);
    (Progress { dots: burnt.len() as u32, ..record }, sheet)
}
