//! Drill List.

use crate::answers::{Progress, Refusal};
use crate::calls::check_sheet;
use crate::shape::cell_count;

/// Drill List: dots and side, then serial, row and column of each dot in order. Gives the length; bytes past it stay
/// (S 9.3).
pub fn drill_list(
    progress: Progress,
    pyramid: &[i64],
    serials: &[u32],
    order: &[u32],
    out: &mut [u8],
) -> Result<usize, Refusal> {
    check_sheet(progress, pyramid, serials, order)?;
    let list = list_text(progress, order).into_bytes();
    if out.len() < list.len() {
        return Err(Refusal::ShortOutput);
    }
    out[..list.len()].copy_from_slice(&list);
    Ok(list.len())
}

/// The list itself, for a sound sheet.
fn list_text(progress: Progress, order: &[u32]) -> String {
    let side = progress.side;
    let mut text = format!("{},{side}\n", progress.dots);
    for (before, cell) in order.iter().take(progress.dots as usize).enumerate() {
        text.push_str(&format!("{},{},{}\n", before + 1, cell / side, cell % side));
    }
    text
}

/// A length that no list of this side passes: a serial has at most 5 digits, a side, row or column at most 3, and a
/// line two commas and its ending.
pub(crate) fn list_room(side: u32) -> usize {
    (cell_count(side) + 1) * (5 + 3 + 3 + 3)
}
