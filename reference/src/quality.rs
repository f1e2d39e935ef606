//! How well one head and two fare on the sample maps, by the sums of Levels, beside two older methods: the error
//! diffusion of Floyd and Steinberg and ordered dithering, both as they are commonly given.

use crate::answers::Refusal;
use crate::case_text::{joined, line};
use crate::knit::PLAIN;
use crate::measures::levels;
use crate::run::{run, run_two_heads, Run};
use crate::samples::{samples, SIDE};
use crate::shape::{DOT, HALF_DOT};

/// One line for each sample and method: the dots, and the sums of Levels from level 0 to the cells.
pub fn quality_csv() -> Result<String, Refusal> {
    let mut text = "map,method,dots,level0,level1,level2,level3,level4,level5\n".to_string();
    for (name, greys) in samples() {
        for (method, serials) in methods(&greys)? {
            let dots = serials.iter().filter(|serial| **serial != 0).count();
            let sums = levels(SIDE, &greys, &serials)?;
            text.push_str(&line(&[name.to_string(), method.to_string(), dots.to_string(), joined(&sums[..6])]));
        }
    }
    Ok(text)
}

/// The sheets that the methods make of a sample, on plain cloth.
fn methods(greys: &[u8]) -> Result<[(&'static str, Vec<u32>); 4], Refusal> {
    let sheet = |run: Run| run.buffers.serials;
    Ok([
        ("one-head", sheet(run(SIDE, PLAIN, greys)?)),
        ("two-heads", sheet(run_two_heads(SIDE, PLAIN, greys)?)),
        ("floyd-steinberg", floyd_steinberg(SIDE as usize, greys)),
        ("ordered", ordered(SIDE as usize, greys)),
    ])
}

/// By row, each from left to right: a cell is burnt if it owes half a dot or more, and of what it then still owes 7/16
/// go to the cell on its right, and 3/16, 5/16 and 1/16 to those below: left, straight and right. What would leave the
/// map is lost. A sheet with 1 for a burnt cell.
fn floyd_steinberg(side: usize, greys: &[u8]) -> Vec<u32> {
    let mut owed: Vec<i64> = greys.iter().map(|grey| 256 * i64::from(*grey)).collect();
    let mut sheet = vec![0; owed.len()];
    for cell in 0..owed.len() {
        let is_burnt = owed[cell] >= HALF_DOT;
        sheet[cell] = u32::from(is_burnt);
        let error = owed[cell] - if is_burnt { DOT } else { 0 };
        let column = cell % side;
        let to =
            [(column + 1 < side, 1, 7), (column > 0, side - 1, 3), (true, side, 5), (column + 1 < side, side + 1, 1)];
        for (is_beside, ahead, weight) in to {
            if is_beside && cell + ahead < owed.len() {
                owed[cell + ahead] += error * weight / 16;
            }
        }
    }
    sheet
}

/// A cell is burnt if its grey, out of 255, is above its threshold. The 64 thresholds, (2 n + 1) / 128, stand on 8 by 8
/// cells in Bayer's order, again and again.
fn ordered(side: usize, greys: &[u8]) -> Vec<u32> {
    let is_burnt = |cell: usize, grey: u8| 128 * u32::from(grey) > 255 * (2 * bayer(cell / side, cell % side) + 1);
    greys.iter().enumerate().map(|(cell, grey)| u32::from(is_burnt(cell, *grey))).collect()
}

/// Bayer's order: the place of a cell, from 0 to 63. The lowest bits of row and column say most.
fn bayer(row: usize, column: usize) -> u32 {
    let mut place = 0;
    for bit in 0..3 {
        let (down, right) = (row >> bit & 1, column >> bit & 1);
        place = 4 * place + 2 * (down ^ right) + down;
    }
    place as u32
}
