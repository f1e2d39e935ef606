//! A sound sheet: one small test for each of its seven conditions (S 4.1 to S 4.7), judged in exact integers.

use crate::answers::Progress;
use crate::shape::{cell_count, entry, level_start, neighbours, power, pyramid_length, DOT};

/// The sheet in question, each buffer cut to its needed length.
struct Sheet<'a> {
    side: u32,
    power: u32,
    dots: usize,
    pyramid: &'a [i64],
    serials: &'a [u32],
    order: &'a [u32],
}

/// All seven, however the sheet came about. A side that isn't one of the eight and a buffer that is too short give
/// false as well, though every call refuses these before.
pub fn sound(progress: Progress, pyramid: &[i64], serials: &[u32], order: &[u32]) -> bool {
    let Ok(power) = power(progress.side) else {
        return false;
    };
    let cells = cell_count(progress.side);
    let needed = pyramid_length(power);
    if pyramid.len() < needed || serials.len() < cells || order.len() < cells {
        return false;
    }
    let sheet = Sheet {
        side: progress.side,
        power,
        dots: progress.dots as usize,
        pyramid: &pyramid[..needed],
        serials: &serials[..cells],
        order: &order[..cells],
    };
    dots_fit(&sheet)
        && order_and_serials_agree(&sheet)
        && no_other_serials(&sheet)
        && unused_places_are_0(&sheet)
        && sums_hold(&sheet)
        && residuals_not_high(&sheet)
        && residuals_not_low(&sheet)
}

/// no more dots than cells (S 4.1)
fn dots_fit(sheet: &Sheet) -> bool {
    sheet.dots <= sheet.order.len()
}

/// the order place of each dot has a cell of the map, whose serial is the dot's (S 4.2)
fn order_and_serials_agree(sheet: &Sheet) -> bool {
    let used = sheet.order.iter().take(sheet.dots);
    used.enumerate().all(|(before, cell)| {
        let serial = sheet.serials.get(*cell as usize);
        serial.is_some_and(|serial| *serial as usize == before + 1)
    })
}

/// no further cell has a serial (S 4.3)
fn no_other_serials(sheet: &Sheet) -> bool {
    sheet.serials.iter().filter(|serial| **serial != 0).count() == sheet.dots
}

/// the order places behind the dots are 0 (S 4.4)
fn unused_places_are_0(sheet: &Sheet) -> bool {
    sheet.order.iter().skip(sheet.dots).all(|cell| *cell == 0)
}

/// each entry above the cells is the sum of its four (S 4.5)
fn sums_hold(sheet: &Sheet) -> bool {
    let value = |level, row, column| i128::from(sheet.pyramid[entry(level, row, column)]);
    (0..sheet.power).all(|level| {
        every_entry(level).all(|(row, column)| {
            value(level, row, column)
                == value(level + 1, 2 * row, 2 * column)
                    + value(level + 1, 2 * row, 2 * column + 1)
                    + value(level + 1, 2 * row + 1, 2 * column)
                    + value(level + 1, 2 * row + 1, 2 * column + 1)
        })
    })
}

/// no residual above one dot, and none above 0 in a cell with a dot (S 4.6)
fn residuals_not_high(sheet: &Sheet) -> bool {
    let residuals = &sheet.pyramid[level_start(sheet.power)..];
    residuals.iter().zip(sheet.serials).all(|(residual, serial)| {
        let most = if *serial == 0 { DOT } else { 0 };
        *residual <= most
    })
}

/// no residual further below 0 than one dot for each neighbour that has one (S 4.7)
fn residuals_not_low(sheet: &Sheet) -> bool {
    every_entry(sheet.power).all(|(row, column)| {
        let near = neighbours(sheet.side, row, column);
        let has_dot = |row, column| sheet.serials[row * sheet.side as usize + column] != 0;
        let near_dots = near.iter().filter(|cell| has_dot(cell.row, cell.column)).count();
        sheet.pyramid[entry(sheet.power, row, column)] >= -DOT * near_dots as i64
    })
}

/// The rows and columns of all entries of a level.
fn every_entry(level: u32) -> impl Iterator<Item = (usize, usize)> {
    let width = 2usize.pow(level);
    (0..width).flat_map(move |row| (0..width).map(move |column| (row, column)))
}
