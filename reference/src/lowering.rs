//! No grey above 240. Load, Map Text and Restore refuse a map with such a grey, and Lower Text makes of a stored text
//! one that they take (S 2.2, S 9.2).

use crate::answers::Refusal;
use crate::map_text::{read_map, write_map_text};

/// The highest grey that is not refused.
pub const HIGHEST: u8 = 240;

/// Refusal 12, for the greys of a map.
pub(crate) fn check_greys(map: &[u8]) -> Result<(), Refusal> {
    if map.iter().any(|grey| *grey > HIGHEST) {
        return Err(Refusal::HighGrey);
    }
    Ok(())
}

/// Lower: each grey above 240 becomes 240.
pub fn lower(greys: &mut [u8]) {
    for grey in greys {
        *grey = (*grey).min(HIGHEST);
    }
}

/// The same greys lowered.
pub fn lowered(greys: &[u8]) -> Vec<u8> {
    let mut low = greys.to_vec();
    lower(&mut low);
    low
}

/// Lower Text: reads a text that fits the grammar, lowers its greys, and writes the text of these. The greys go
/// into the greys buffer and the text into the output, each place past them stays, and the text's length is returned.
/// Refusals: those of the grammar's reader, 7, 1, 2, 7, then 8.
pub fn lower_text(text: &[u8], greys: &mut [u8], out: &mut [u8]) -> Result<usize, Refusal> {
    let (side, read) = read_map(text, greys.len())?;
    let low = lowered(&read);
    let written = write_map_text(side, &low);
    if out.len() < written.len() {
        return Err(Refusal::ShortOutput);
    }
    greys[..low.len()].copy_from_slice(&low);
    out[..written.len()].copy_from_slice(&written);
    Ok(written.len())
}
