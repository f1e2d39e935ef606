//! Plates compared, and shelves of plates put in order.

use std::cmp::Reverse;

use crate::parts::needed;
use crate::random::Random;
use crate::side_by_side::{Differs, SideBySide};

/// Two plates that are mostly much alike, compared both ways round.
pub fn compare_case(random: &mut Random, calls: &mut SideBySide, side: u32) -> Result<(), Differs> {
    let (cells, _) = needed(side);
    let mut left = plate(random, cells);
    let mut right = if random.once_in(4) { plate(random, cells) } else { alike(random, &left) };
    for sheet in [&mut left, &mut right] {
        let length = random.length(cells);
        sheet.resize_with(length, || random.serial());
    }
    calls.compare(side, &left, &right)?;
    calls.compare(side, &right, &left)?;
    Ok(())
}

/// A shelf on which many plates are much alike, with a list of noise.
pub fn shelf_case(random: &mut Random, calls: &mut SideBySide, side: u32) -> Result<(), Differs> {
    let (cells, _) = needed(side);
    let there = plate_count(random, cells);
    let mut shelf = arranged(random, cells, there);
    let length = random.length(there * cells);
    shelf.resize_with(length, || random.serial());
    let n = number(random, cells, there);
    let lent = random.length(n.min(400) as usize);
    let mut list: Vec<u32> = (0..lent + random.below(3)).map(|_| random.next() as u32).collect();
    calls.shelf(side, n, &shelf, &mut list, lent)?;
    Ok(())
}

/// How many plates stand on a shelf: mostly a few, now and then some hundreds if they are small.
fn plate_count(random: &mut Random, cells: usize) -> usize {
    let most = (4096 / cells).clamp(3, 300);
    match random.below(64) {
        0 => most,
        1 => random.below(most),
        2..=5 => 0,
        6..=9 => 1,
        _ => 2 + random.below(most.min(12) - 1),
    }
}

/// The number asked for: as many as there are, mostly; else one more or less, or so many that they need 2^32 places.
fn number(random: &mut Random, cells: usize, there: usize) -> u32 {
    let there = there as u32;
    let huge = ((1u64 << 32) / cells as u64) as u32;
    match random.below(16) {
        0 => there + 1,
        1 => there.saturating_sub(1),
        2 => random.pick(&[huge, huge + 1, huge - 1, 1 << 31, u32::MAX]),
        _ => there,
    }
}

/// A shelf of plates as they were drawn, or in rising or falling order.
fn arranged(random: &mut Random, cells: usize, count: usize) -> Vec<u32> {
    let mut plates: Vec<Vec<u32>> = Vec::new();
    for place in 0..count {
        if place == 0 || random.once_in(4) {
            plates.push(plate(random, cells));
        } else {
            let earlier = random.below(place);
            plates.push(alike(random, &plates[earlier]));
        }
    }
    match random.below(6) {
        0 => plates.sort_by_key(|plate| key(plate)),
        1 => plates.sort_by_key(|plate| Reverse(key(plate))),
        _ => (),
    }
    plates.concat()
}

/// What plates are compared by: how many cells are burnt, then which.
fn key(plate: &[u32]) -> (usize, Vec<bool>) {
    let burnt: Vec<bool> = plate.iter().map(|serial| *serial != 0).collect();
    (burnt.iter().filter(|burnt| **burnt).count(), burnt)
}

/// A plate with few cells burnt, half of them, or all.
fn plate(random: &mut Random, cells: usize) -> Vec<u32> {
    let rare = random.pick(&[1, 2, 2, 3, 8, cells]);
    (0..cells).map(|_| if random.once_in(rare) { burnt(random) } else { 0 }).collect()
}

/// A serial that isn't 0: a small one, one of a single bit, or any.
fn burnt(random: &mut Random) -> u32 {
    let any = random.next() as u32;
    random.pick(&[1, 2, 1 << 8, 1 << 16, 1 << 31, u32::MAX, any.max(1)])
}

/// A plate burnt as this one is, with serials of its own.
fn renumbered(random: &mut Random, plate: &[u32]) -> Vec<u32> {
    plate.iter().map(|serial| if *serial == 0 { 0 } else { burnt(random) }).collect()
}

/// The same, mostly with a cell or two burnt otherwise; the last cells and the first one more often.
fn alike(random: &mut Random, plate: &[u32]) -> Vec<u32> {
    let mut other = renumbered(random, plate);
    let last = plate.len() - 1;
    let (any, further) = (random.below(plate.len()), random.below(plate.len()));
    match random.below(10) {
        0 => turn(random, &mut other, last),
        1 | 2 => other.swap(last - 1, last),
        3 => other.swap(0, any),
        4 => other.swap(any, last),
        5 => other.swap(any, further),
        6 => turn(random, &mut other, any),
        _ => (),
    }
    other
}

/// Burns a cell that is unburnt; else leaves it unburnt.
fn turn(random: &mut Random, plate: &mut [u32], cell: usize) {
    plate[cell] = if plate[cell] == 0 { burnt(random) } else { 0 };
}

/// Every answer of Compare, from a finished plate and some that are much like it; then shelves of these: many of each,
/// again in falling order, one of each in falling order, one plate, and none.
pub fn plates_tour(random: &mut Random, calls: &mut SideBySide, side: u32, finished: &[u32]) -> Result<(), Differs> {
    let mut plates = much_alike(random, finished);
    for left in &plates {
        for right in &plates {
            calls.compare(side, left, right)?;
        }
    }
    // sheets that are longer, and overlap
    let shelf = plates.concat();
    calls.compare(side, &shelf, &shelf[finished.len()..])?;
    // many of each plate, where they are small
    let times = (1024 / finished.len()).clamp(2, 40);
    sorted(calls, side, &shelf.repeat(times))?;
    plates.sort_by_key(|plate| Reverse(key(plate)));
    sorted(calls, side, &plates.iter().flat_map(|plate| plate.repeat(times)).collect::<Vec<u32>>())?;
    plates.dedup_by_key(|plate| key(plate));
    sorted(calls, side, &plates.concat())?;
    calls.shelf(side, 1, &plates.concat(), &mut [9], 1)?;
    calls.shelf(side, 0, &[], &mut [], 0)?;
    Ok(())
}

/// A plate; the same with other serials, with its last cell otherwise, with each one of the last two cells burnt and
/// not the other; and two with a hole in the first and in the second cell alone.
fn much_alike(random: &mut Random, plate: &[u32]) -> Vec<Vec<u32>> {
    let cells = plate.len();
    let mut plates = vec![plate.to_vec(), renumbered(random, plate)];
    let mut other = renumbered(random, plate);
    turn(random, &mut other, cells - 1);
    plates.push(other.clone());
    for ends in [[0, 1], [1, 0]] {
        other[cells - 2..].copy_from_slice(&ends);
        plates.push(other.clone());
    }
    for cell in [0, 1] {
        other.fill(0);
        other[cell] = burnt(random);
        plates.push(other.clone());
    }
    plates
}

/// All plates of a shelf put in order: with just the needed lengths, then with a place to spare for each.
fn sorted(calls: &mut SideBySide, side: u32, plates: &[u32]) -> Result<(), Differs> {
    let n = plates.len() / needed(side).0;
    calls.shelf(side, n as u32, plates, &mut vec![9; n], n)?;
    calls.shelf(side, n as u32, &[plates, &[1]].concat(), &mut vec![9; n + 2], n + 1)?;
    Ok(())
}

/// Compare and Shelf: no side, sheets, shelf and list one place short, and plates that need 2^32 places.
pub fn refused_plates(calls: &mut SideBySide, side: u32, serials: &[u32]) -> Result<(), Differs> {
    for (left, right) in [(&serials[1..], serials), (serials, &serials[1..])] {
        calls.compare(side, left, right)?;
        calls.compare(side + 1, left, right)?;
    }
    let plates = [serials, serials].concat();
    let mut list = vec![9; 65_536];
    calls.shelf(side + 1, 2, &plates, &mut list, 2)?;
    calls.shelf(side, 2, &plates[1..], &mut list, 2)?;
    calls.shelf(side, 2, &plates[1..], &mut list, 1)?;
    calls.shelf(side, 2, &plates, &mut list, 1)?;
    // at side 256 the list is long enough
    let huge = (1u64 << 32) / serials.len() as u64;
    calls.shelf(side, huge as u32, &plates, &mut list, 65_536)?;
    Ok(())
}
