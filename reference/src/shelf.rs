//! Compare and Shelf (S 11.1, S 11.2).

use std::cmp::Ordering;

use crate::answers::{Compared, Refusal};
use crate::shape::{cell_count, power};

/// How the left of two plates stands to the right one. A plate is a serial sheet, of which only the burnt cells count.
/// Refusals: 1, then 4 for either sheet.
pub fn compare(side: u32, left: &[u32], right: &[u32]) -> Result<Compared, Refusal> {
    power(side)?;
    let cells = cell_count(side);
    if left.len() < cells || right.len() < cells {
        return Err(Refusal::ShortSheet);
    }
    Ok(compared(side, &left[..cells], &right[..cells]))
}

/// Puts the first n plates of a shelf in order: their numbers, from 0 on, go into the first n places of the list.
/// Refusals: 1, then 4 for a shelf without n whole plates, then 8 for a list without n places.
pub fn shelf(side: u32, n: u32, plates: &[u32], list: &mut [u32]) -> Result<(), Refusal> {
    power(side)?;
    let cells = cell_count(side);
    // at most 2^48
    if (plates.len() as u64) < u64::from(n) * cells as u64 {
        return Err(Refusal::ShortSheet);
    }
    if (list.len() as u64) < u64::from(n) {
        return Err(Refusal::ShortOutput);
    }
    let plate = |number: u32| &plates[number as usize * cells..][..cells];
    let order = in_order(n, |left, right| compared(side, plate(left), plate(right)).is_before());
    list[..order.len()].copy_from_slice(&order);
    Ok(())
}

/// The same as Compare, for sheets of just N² places.
fn compared(side: u32, left: &[u32], right: &[u32]) -> Compared {
    match dots(left).cmp(&dots(right)) {
        Ordering::Less => Compared::Before,
        Ordering::Equal => first_difference(side, left, right),
        Ordering::Greater => Compared::After,
    }
}

/// The number of burnt cells.
fn dots(plate: &[u32]) -> usize {
    plate.iter().filter(|serial| **serial != 0).count()
}

/// By row, and in a row by column. The plate that is unburnt at the first difference comes first.
fn first_difference(side: u32, left: &[u32], right: &[u32]) -> Compared {
    for row in 0..side {
        for column in 0..side {
            let cell = (row * side + column) as usize;
            match (left[cell] != 0, right[cell] != 0) {
                (false, true) => return Compared::BeforeAt(row, column),
                (true, false) => return Compared::AfterAt(row, column),
                _ => (),
            }
        }
    }
    Compared::Same
}

/// The numbers 0 to n − 1 in order, equals as they were: each in turn is put among those before it. This asks at most
/// n × (1 + log2 n) times whether one number comes before another.
pub fn in_order(n: u32, mut is_before: impl FnMut(u32, u32) -> bool) -> Vec<u32> {
    let mut order = Vec::new();
    for number in 0..n {
        let place = place_by_halves(&order, |other| is_before(number, other));
        order.insert(place, number);
    }
    order
}

/// The place of the first number that a new one comes before, or the end; so the new one goes behind all its equals.
fn place_by_halves(order: &[u32], mut is_before: impl FnMut(u32) -> bool) -> usize {
    let (mut low, mut high) = (0, order.len());
    while low < high {
        let middle = (low + high) / 2;
        if is_before(order[middle]) {
            high = middle;
        } else {
            low = middle + 1;
        }
    }
    low
}
