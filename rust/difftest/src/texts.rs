//! Map texts, read and lowered.

use reference::{cell_count, write_map_text};

use crate::parts::mostly_low_greys;
use crate::random::Random;
use crate::side_by_side::{Differs, SideBySide};

/// A map's text with some bytes changed.
pub fn text_case(random: &mut Random, calls: &mut SideBySide, side: u32) -> Result<(), Differs> {
    let mut text = written(random, side);
    for _ in 0..random.below(3) {
        change(random, &mut text);
    }
    read(random, calls, side, &text)
}

/// A text whose first line says one side and whose other lines are those of another, mostly the next larger or smaller.
pub fn mixed_text_case(random: &mut Random, calls: &mut SideBySide, side: u32) -> Result<(), Differs> {
    let other = other_side(random, side);
    let mut text = written(random, other);
    rename(&mut text, other, side);
    if random.once_in(4) {
        change(random, &mut text);
    }
    read(random, calls, side, &text)
}

/// The text of greys of one kind or another.
fn written(random: &mut Random, side: u32) -> Vec<u8> {
    let greys = mostly_low_greys(random, cell_count(side));
    write_map_text(side, &greys)
}

/// Map Text into a greys buffer around the length that a side needs, and Lower Text, into an output around the text's
/// length as well; now and then it has none.
fn read(random: &mut Random, calls: &mut SideBySide, side: u32, text: &[u8]) -> Result<(), Differs> {
    let room = random.length(cell_count(side));
    let mut buffer = vec![9; room];
    calls.map_text(side, text, &mut buffer)?;
    let bytes = if random.once_in(16) { 0 } else { random.length(text.len()) };
    calls.lower_text(side, text, &mut vec![9; room], &mut vec![46; bytes])?;
    Ok(())
}

/// A side's neighbour, the next larger or the next smaller one, or now and then any.
pub fn other_side(random: &mut Random, side: u32) -> u32 {
    let next = match side {
        2 => 4,
        256 => 128,
        _ => random.pick(&[side / 2, 2 * side]),
    };
    if random.once_in(4) {
        random.good_side()
    } else {
        next
    }
}

/// Makes the first line of a text of one side that of another.
pub fn rename(text: &mut Vec<u8>, from: u32, to: u32) {
    text.splice(..from.to_string().len(), to.to_string().into_bytes());
}

/// One change: a byte set, taken out, put in or doubled, the rest cut off, or something behind.
pub fn change(random: &mut Random, text: &mut Vec<u8>) {
    let word = random.next() as u8;
    let byte = random.pick(&[b'0', b'1', b'2', b'5', b'6', b'9', b',', b'\n', b'\r', b' ', b'+', b'-', 0, 255, word]);
    if text.is_empty() {
        text.push(byte);
        return;
    }
    // the first bytes and the last are changed more often
    let near = random.below(text.len().min(4));
    let any = random.below(text.len());
    let place = random.pick(&[near, text.len() - 1 - near, any]);
    match random.below(7) {
        0 | 1 => text[place] = byte,
        2 => text.insert(place, byte),
        3 => drop(text.remove(place)),
        4 => text.insert(place, text[place]),
        5 => text.truncate(place),
        _ => text.push(byte),
    }
}
