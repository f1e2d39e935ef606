//! Map Text: the reader, and the writer of the one text of a map. Sketches are read and written here too, as texts of
//! the same grammar with two numbers for each cell.

use crate::answers::Refusal;
use crate::lowering::check_greys;
use crate::shape::{cell_count, power};

/// Map Text: the greys of a text go into their buffer, and its side is returned. Last of all comes 12.
pub fn map_text(text: &[u8], greys: &mut [u8]) -> Result<u32, Refusal> {
    let (side, read) = read_map(text, greys.len())?;
    check_greys(&read)?;
    greys[..read.len()].copy_from_slice(&read);
    Ok(side)
}

/// The side and the N² greys of a text that fits the grammar, for a greys buffer with so much room.
pub(crate) fn read_map(text: &[u8], room: usize) -> Result<(u32, Vec<u8>), Refusal> {
    read_greys(text, room, 1)
}

/// The side and all greys of a text with so many of them for each cell, for buffers with room for so many cells. In
/// this order: 7 for a first line that is no number of at most three digits, 1, 2, and 7 for what follows it.
pub(crate) fn read_greys(text: &[u8], room: usize, each: usize) -> Result<(u32, Vec<u8>), Refusal> {
    let (line, rest) = cut_line(text).ok_or(Refusal::BadText)?;
    let side = number(line).ok_or(Refusal::BadText)?;
    power(side)?;
    if room < cell_count(side) {
        return Err(Refusal::ShortGreys);
    }
    let read = grey_lines(side as usize, each * side as usize, rest).ok_or(Refusal::BadText)?;
    Ok((side, read))
}

/// So many lines with so many greys in each, between them commas, and nothing behind the last of them.
fn grey_lines(lines: usize, count: usize, text: &[u8]) -> Option<Vec<u8>> {
    let mut greys = Vec::new();
    let mut rest = text;
    for _ in 0..lines {
        let (line, after) = cut_line(rest)?;
        greys.extend(grey_line(count, line)?);
        rest = after;
    }
    if rest.is_empty() {
        Some(greys)
    } else {
        None
    }
}

/// A line of so many greys with commas between; one above 255 does not fit (S 6.2).
fn grey_line(count: usize, line: &[u8]) -> Option<Vec<u8>> {
    let mut greys = Vec::new();
    for part in line.split(|byte| *byte == b',') {
        greys.push(u8::try_from(number(part)?).ok()?);
    }
    if greys.len() == count {
        Some(greys)
    } else {
        None
    }
}

/// The line before the first byte 10, and what comes after that byte (S 6.1).
pub(crate) fn cut_line(text: &[u8]) -> Option<(&[u8], &[u8])> {
    let end = text.iter().position(|byte| *byte == 10)?;
    Some((&text[..end], &text[end + 1..]))
}

/// A number in decimal digits without a leading zero (S 6.1). None of more than three digits fits anywhere, so these
/// are none.
fn number(digits: &[u8]) -> Option<u32> {
    let leading_zero = digits.len() > 1 && digits[0] == b'0';
    if digits.is_empty() || digits.len() > 3 || leading_zero {
        return None;
    }
    let mut value = 0;
    for digit in digits {
        if !digit.is_ascii_digit() {
            return None;
        }
        value = 10 * value + u32::from(digit - b'0');
    }
    Some(value)
}

/// The text of a map: its side, then a line for each row (S 6.2). Written for N² greys by row.
pub fn write_map_text(side: u32, greys: &[u8]) -> Vec<u8> {
    write_greys(side, greys, 1)
}

/// The side on a line by itself, then for each row a line of greys, so many for each cell.
pub(crate) fn write_greys(side: u32, greys: &[u8], each: usize) -> Vec<u8> {
    let mut text = format!("{side}\n");
    // the 1 only keeps the side 0, which has no rows, from being refused by `chunks`
    let rows = greys.chunks(each * side.max(1) as usize).take(side as usize);
    for row in rows {
        let numbers: Vec<String> = row.iter().map(|grey| grey.to_string()).collect();
        text.push_str(&numbers.join(","));
        text.push('\n');
    }
    text.into_bytes()
}
