//! The calls that read and write texts, and Levels, at side 256: the library's beside the reference's, which is written
//! to be read and not to be quick.

use std::hint::black_box;

use crate::buffers::Buffers;
use crate::clock::{timed, Time};
use crate::engines::LIBRARY;
use crate::table::{grouped, Row, Unit, NANOSECONDS_A_BYTE, NANOSECONDS_A_CELL};
use crate::turns::{in_turn, Runner};
use crate::{sampled, PLAIN_CLOTH, POWER, SIDE};

/// How often a call is repeated in a measured stretch, and how often the page is, which is shorter.
const REPEATS: usize = 8;
const PAGE_REPEATS: usize = 64;

/// The level of the page: 1,024 lines, each for a square of 8 by 8 cells.
const LEVEL: u32 = 5;

pub fn rows() -> Vec<Row> {
    let greys = sampled(POWER);
    let mut sheet = Buffers::cleared(POWER);
    (LIBRARY.load)(POWER, PLAIN_CLOTH, &greys, &mut sheet);
    let dots = (LIBRARY.advance)(POWER, PLAIN_CLOTH, 0, u32::MAX, &mut sheet);
    vec![map_text(&greys), drill_list(dots, &sheet), quote_page(&greys, &sheet.serials), levels(&greys, &sheet.serials)]
}

/// The greys are read from the text that the reference wrote of them.
fn map_text(greys: &[u8]) -> Row {
    let text = reference::write_map_text(SIDE, greys);
    let (times, read) = beside_reference(
        REPEATS,
        || Output::cleared(greys.len()),
        |out| out.number = rulmedei::map_text(&text, &mut out.bytes).expect("map text") as usize,
        |out| out.number = reference::map_text(&text, &mut out.bytes).expect("map text") as usize,
    );
    assert!(read.bytes == greys, "other greys are read than were written");
    row("Map Text", "bytes", text.len(), NANOSECONDS_A_BYTE, times)
}

/// The reference's has its pyramid row after row, written so beforehand: what it would take to do so in the call is no
/// part of writing a list.
fn drill_list(dots: u32, sheet: &Buffers) -> Row {
    let Buffers { pyramid, serials, order } = sheet;
    let by_rows = reference::to_rows(SIDE, pyramid);
    let record = rulmedei::Progress { side: SIDE, dots, knit: rulmedei::PLAIN };
    let same_record = reference::Progress { side: SIDE, dots, knit: reference::PLAIN };
    let list = |out: &mut Output| rulmedei::drill_list(record, pyramid, serials, order, &mut out.bytes);
    let same_list =
        |out: &mut Output| reference::by_rows::drill_list(same_record, &by_rows, serials, order, &mut out.bytes);
    let (times, written) = beside_reference(
        REPEATS,
        || Output::cleared(rulmedei::list_room(SIDE)),
        |out| out.number = list(out).expect("drill list"),
        |out| out.number = same_list(out).expect("drill list"),
    );
    row("Drill List", "bytes", written.number, NANOSECONDS_A_BYTE, times)
}

fn quote_page(greys: &[u8], serials: &[u32]) -> Row {
    let (times, written) = beside_reference(
        PAGE_REPEATS,
        || Output::cleared(rulmedei::page_length(LEVEL)),
        |out| out.number = rulmedei::quote_page(SIDE, greys, serials, LEVEL, &mut out.bytes).expect("quote page"),
        |out| out.number = reference::quote_page(SIDE, greys, serials, LEVEL, &mut out.bytes).expect("quote page"),
    );
    row(&format!("Quote Page, level {LEVEL}"), "bytes", written.number, NANOSECONDS_A_BYTE, times)
}

fn levels(greys: &[u8], serials: &[u32]) -> Row {
    let (times, _) = beside_reference(
        REPEATS,
        || [0; 9],
        |sums| *sums = rulmedei::levels(SIDE, greys, serials).expect("levels"),
        |sums| *sums = reference::levels(SIDE, greys, serials).expect("levels"),
    );
    row("Levels", "cells", greys.len(), NANOSECONDS_A_CELL, times)
}

/// What a call writes, and the number that it returns.
#[derive(PartialEq)]
struct Output {
    bytes: Vec<u8>,
    number: usize,
}

impl Output {
    /// So many bytes, each written once and then cleared; the black box keeps the compiler from taking both together.
    fn cleared(length: usize) -> Output {
        let mut bytes = vec![1; length];
        black_box(&mut bytes).fill(0);
        Output { bytes, number: 0 }
    }
}

/// The times of a call of the library and of the reference's, repeated so often in a stretch; and the output, which
/// must be the same.
fn beside_reference<T: PartialEq>(
    repeats: usize,
    fresh: impl Fn() -> T,
    library: impl Fn(&mut T),
    reference: impl Fn(&mut T),
) -> ([Time; 2], T) {
    let repeated = |call: &dyn Fn(&mut T)| {
        let mut output = fresh();
        let (time, ()) = timed(|| (0..repeats).for_each(|_| call(black_box(&mut output))));
        ([time.over(repeats)], output)
    };
    let (times, output) = in_turn(
        Runner { name: "the library", run: &|| repeated(&library) },
        &[Runner { name: "the reference", run: &|| repeated(&reference) }],
    );
    ([times[0][0], times[1][0]], output)
}

fn row(call: &str, parts: &str, count: usize, unit: Unit, [library, other]: [Time; 2]) -> Row {
    Row {
        what: format!("{call}, {} {parts}", grouped(count)),
        unit,
        library: library.over(count),
        beside: "reference".to_string(),
        other: other.over(count),
    }
}
