//! The program `quote`, as a function from its input to what it prints.

use crate::answers::Refusal;
use crate::knit::PLAIN;
use crate::map_text::{cut_line, map_text};
use crate::plate::GREYS_ROOM;
use crate::quote_page::quote_page;
use crate::run::run;

/// Enough for every page of side 32: 1,024 lines of 29 bytes.
const PAGE_ROOM: usize = 29_696;

/// Reads a line with the level and then a map text, runs the map to finished on plain cloth and prints the quote page
/// of that level; or, where it is refused, the line that `plate` has for that.
pub fn quote(input: &[u8]) -> Vec<u8> {
    match page_of(input) {
        Ok(page) => page,
        Err(refusal) => format!("refused,{}\n", refusal.number()).into_bytes(),
    }
}

/// The same, with the refusal kept apart: 7 for the first line, then those of Map Text, then those of Quote Page.
fn page_of(input: &[u8]) -> Result<Vec<u8>, Refusal> {
    let (line, text) = cut_line(input).ok_or(Refusal::BadText)?;
    let level = level(line).ok_or(Refusal::BadText)?;
    let mut greys = [0; GREYS_ROOM];
    let side = map_text(text, &mut greys)?;
    let serials = run(side, PLAIN, &greys)?.buffers.serials;
    let mut page = vec![0; PAGE_ROOM];
    let length = quote_page(side, &greys, &serials, level, &mut page)?;
    page.truncate(length);
    Ok(page)
}

/// A 32-bit number just as it is written in decimal: no sign, no leading zero.
pub(crate) fn level(digits: &[u8]) -> Option<u32> {
    let text = std::str::from_utf8(digits).ok()?;
    let number: u32 = text.parse().ok()?;
    if number.to_string() == text {
        Some(number)
    } else {
        None
    }
}
