//! Every argument of 32 bits of every call, 2^8, 2^16, 2^24 and 2^31 more than a valid one, with all else as the valid
//! call has it; likewise a serial and an order place of the buffers that are read. A call that cut the number to fewer
//! bits would take it for the valid one. To show that this would be noticed, the call is also made as such a wrong
//! wrapper makes it, with the number cut to 8, 16, 24 and 31 bits, and that has to be told from the right call.

use reference::{to_rows, write_sketch, Checkpoints, Progress, PLAIN, SIDES};
use rulmedei::page_length;

use crate::library::Outcome;
use crate::parts::{blank, needed, whole};
use crate::side_by_side::{Differs, Quoted, Sheet, SideBySide};

/// The powers of two by which a number is more, which are also the bits to which it is cut.
const BITS: [u32; 4] = [8, 16, 24, 31];

/// The smallest side on which two heads work.
const LARGE: u32 = 16;

/// What is lent to the calls, for a record of a side with one hole.
#[derive(Clone)]
struct Given {
    record: Progress,
    greys: Vec<u8>,
    sheet: Sheet,
    older: Sheet,
    second: Vec<i64>,
    checkpoints: Checkpoints,
    sketch: Vec<u8>,
    quoted: Quoted,
    plates: Vec<u32>,
    list: Vec<u32>,
    out: Vec<u8>,
}

/// A number that a call is given: what it is called, a valid value, and the code of the call where it is more.
type Number = (&'static str, u32, u32);

/// A call: its numbers, and how it is made with these on what is lent.
struct Wide {
    call: &'static str,
    numbers: fn(&Given) -> Vec<Number>,
    made: fn(&mut SideBySide, &mut Given, &[u32]) -> Result<Outcome, Differs>,
}

const CALLS: [Wide; 15] = [
    Wide { call: "load", numbers: side_and_knit, made: load },
    Wide { call: "advance", numbers: |given| [of_sheet(given), vec![("budget", 0, 0)]].concat(), made: advance },
    Wide { call: "two_heads", numbers: side_and_knit, made: two_heads },
    Wide {
        call: "tally",
        numbers: |given| {
            [side(given), vec![("level", 1, 6), ("row", 1, 6), ("column", 1, 6), ("serial", 0, 0)]].concat()
        },
        made: tally,
    },
    Wide { call: "levels", numbers: |given| [side(given), vec![("serial", 0, 0)]].concat(), made: levels },
    Wide { call: "sketch_quote", numbers: |_| vec![("level", 1, 6)], made: sketch_quote },
    Wide { call: "drill_list", numbers: of_sheet, made: drill_list },
    Wide {
        call: "quote_page",
        numbers: |given| [side(given), vec![("level", 1, 6), ("serial", 0, 0)]].concat(),
        made: quote_page,
    },
    Wide { call: "sample", numbers: |given| [side(given), vec![("seed", 7, 0)]].concat(), made: sample },
    Wide { call: "compare", numbers: |given| [side(given), vec![("serial", 0, 106)]].concat(), made: compare },
    Wide { call: "shelf", numbers: |given| [side(given), vec![("n", 2, 4), ("serial", 0, 0)]].concat(), made: shelf },
    Wide {
        call: "keep",
        numbers: |given| [side(given), vec![("dots", 1, 0), ("knit", PLAIN, 0), ("name", 3, 10)]].concat(),
        made: keep,
    },
    Wide { call: "restore", numbers: |given| [of_sheet(given), vec![("name", 3, 10)]].concat(), made: restore },
    Wide { call: "relay", numbers: of_sheet, made: relay },
    Wide {
        call: "renew",
        numbers: |given| vec![("side", given.record.side, 101), ("row", 1, 101), ("column", 1, 101)],
        made: renew,
    },
];

/// Each call at each side (S 5.1, S 7.3, S 12.1).
pub fn wide_cases(calls: &mut SideBySide) -> Result<(), Differs> {
    for side in SIDES {
        let given = given(calls, side)?;
        for wide in CALLS.iter().filter(|wide| side >= LARGE || wide.call != "two_heads") {
            each_number(calls, &given, wide)?;
        }
    }
    Ok(())
}

/// Each number of a call in turn, with each power of two.
fn each_number(calls: &mut SideBySide, given: &Given, wide: &Wide) -> Result<(), Differs> {
    let numbers = (wide.numbers)(given);
    let valid: Vec<u32> = numbers.iter().map(|(_, value, _)| *value).collect();
    let right = left(calls, given, wide, &valid)?;
    if matches!(right.outcome.code, 1..=99 | 101) {
        return Err(format!("{}: {valid:?} gives {}", wide.call, right.outcome.code));
    }
    for (place, (name, value, code)) in numbers.into_iter().enumerate() {
        let with = |number: u32| [&valid[..place], &[number], &valid[place + 1..]].concat();
        for bits in BITS {
            let more = value + (1 << bits);
            let wider = left(calls, given, wide, &with(more))?;
            if wider.outcome.code != code {
                return Err(format!("{}: {name} {more} gives {}, not {code}", wide.call, wider.outcome.code));
            }
            let cut = more % (1 << bits);
            let wrong = if cut == value { None } else { Some(left(calls, given, wide, &with(cut))?) };
            // Keep does not look at the knit, and the crate gives no record back
            if (wide.call, name) == ("keep", "knit") || wider != *wrong.as_ref().unwrap_or(&right) {
                calls.coverage.note_fixed((wide.call, name, bits));
            }
        }
    }
    Ok(())
}

/// What a call answers, and the texts, greys and lists that it may write. By what it leaves of a sheet no two are told
/// apart: some of the numbers are places of it.
#[derive(PartialEq)]
struct Left {
    outcome: Outcome,
    bytes: [Vec<u8>; 4],
    words: [Vec<u32>; 2],
    second: Vec<i64>,
}

/// The call with these numbers.
fn left(calls: &mut SideBySide, given: &Given, wide: &Wide, numbers: &[u32]) -> Result<Left, Differs> {
    let mut lent = given.clone();
    let outcome = (wide.made)(calls, &mut lent, numbers)?;
    let Given { greys, out, quoted: Quoted { lows, highs, caps }, list, second, .. } = lent;
    Ok(Left { outcome, bytes: [greys, out, lows, highs], words: [caps, list], second })
}

/// A map of fewer than 256 holes with one of them made, and what else the calls are lent.
fn given(calls: &mut SideBySide, side: u32) -> Result<Given, Differs> {
    let (cells, length) = needed(side);
    let greys: Vec<u8> = (0..cells).map(|cell| if cell < 256 { 240 - (cell % 7) as u8 } else { 0 }).collect();
    let mut sheet = blank(side, 0);
    let all = whole(&sheet);
    let loaded = calls.load(side, side.trailing_zeros() % 2, &greys, &mut sheet, all)?;
    let record = calls.advance(loaded.progress(), 1, &mut sheet, all)?.progress();
    Ok(Given {
        record,
        older: Sheet { pyramid: to_rows(side, &sheet.pyramid), ..sheet.clone() },
        second: vec![-7; length],
        checkpoints: Checkpoints { kept: [2; 8] },
        sketch: write_sketch(side, &greys, &greys),
        quoted: Quoted { lows: vec![9; cells], highs: vec![9; cells], caps: vec![9; 4] },
        plates: [&sheet.serials[..], &sheet.serials].concat(),
        list: vec![9; 2],
        out: vec![46; page_length(1)],
        greys,
        sheet,
    })
}

fn side(given: &Given) -> Vec<Number> {
    vec![("side", given.record.side, 1)]
}

fn side_and_knit(given: &Given) -> Vec<Number> {
    [side(given), vec![("knit", given.record.knit, 11)]].concat()
}

/// The record, the serial of its hole, and the order place of that.
fn of_sheet(given: &Given) -> Vec<Number> {
    let places = vec![("serial", 1, 5), ("order", given.sheet.order[0], 5)];
    [side_and_knit(given), vec![("dots", given.record.dots, 5)], places].concat()
}

/// A record of the first three numbers of `of_sheet`; the next two are written into the sheet.
fn sheet_with(numbers: &[u32], sheet: &mut Sheet) -> Progress {
    sheet.serials[sheet.order[0] as usize] = numbers[3];
    sheet.order[0] = numbers[4];
    Progress { side: numbers[0], knit: numbers[1], dots: numbers[2] }
}

/// The last serial, which is 0 in a valid call, becomes another.
fn last_serial(serials: &mut [u32], serial: u32) {
    if let Some(last) = serials.last_mut() {
        *last = serial;
    }
}

fn load(calls: &mut SideBySide, given: &mut Given, numbers: &[u32]) -> Result<Outcome, Differs> {
    let all = whole(&given.sheet);
    calls.load(numbers[0], numbers[1], &given.greys, &mut given.sheet, all)
}

fn advance(calls: &mut SideBySide, given: &mut Given, numbers: &[u32]) -> Result<Outcome, Differs> {
    let all = whole(&given.sheet);
    calls.advance(sheet_with(numbers, &mut given.sheet), numbers[5], &mut given.sheet, all)
}

fn two_heads(calls: &mut SideBySide, given: &mut Given, numbers: &[u32]) -> Result<Outcome, Differs> {
    let all = whole(&given.sheet);
    calls.two_heads(numbers[0], numbers[1], &given.greys, &mut given.sheet, all)
}

fn tally(calls: &mut SideBySide, given: &mut Given, numbers: &[u32]) -> Result<Outcome, Differs> {
    last_serial(&mut given.sheet.serials, numbers[4]);
    calls.tally(numbers[0], &given.sheet.serials, [numbers[1], numbers[2], numbers[3]])
}

fn levels(calls: &mut SideBySide, given: &mut Given, numbers: &[u32]) -> Result<Outcome, Differs> {
    last_serial(&mut given.sheet.serials, numbers[1]);
    calls.levels(numbers[0], &given.greys, &given.sheet.serials)
}

fn sketch_quote(calls: &mut SideBySide, given: &mut Given, numbers: &[u32]) -> Result<Outcome, Differs> {
    let lent = [given.quoted.lows.len(), given.quoted.highs.len(), given.quoted.caps.len()];
    calls.sketch_quote(given.record.side, &given.sketch, numbers[0], &mut given.quoted, lent)
}

fn drill_list(calls: &mut SideBySide, given: &mut Given, numbers: &[u32]) -> Result<Outcome, Differs> {
    let record = sheet_with(numbers, &mut given.sheet);
    calls.drill_list(record, &given.sheet, whole(&given.sheet), &mut given.out)
}

fn quote_page(calls: &mut SideBySide, given: &mut Given, numbers: &[u32]) -> Result<Outcome, Differs> {
    last_serial(&mut given.sheet.serials, numbers[2]);
    calls.quote_page(numbers[0], &given.greys, &given.sheet.serials, numbers[1], &mut given.out)
}

fn sample(calls: &mut SideBySide, given: &mut Given, numbers: &[u32]) -> Result<Outcome, Differs> {
    let room = given.greys.len();
    calls.sample(numbers[1], numbers[0], &mut given.greys, room)
}

fn compare(calls: &mut SideBySide, given: &mut Given, numbers: &[u32]) -> Result<Outcome, Differs> {
    let right = given.sheet.serials.clone();
    last_serial(&mut given.sheet.serials, numbers[1]);
    calls.compare(numbers[0], &given.sheet.serials, &right)
}

/// The serial is in the first plate, which comes before the second only without it.
fn shelf(calls: &mut SideBySide, given: &mut Given, numbers: &[u32]) -> Result<Outcome, Differs> {
    last_serial(&mut given.plates[..given.greys.len()], numbers[2]);
    let room = given.list.len();
    calls.shelf(numbers[0], numbers[1], &given.plates, &mut given.list, room)
}

fn keep(calls: &mut SideBySide, given: &mut Given, numbers: &[u32]) -> Result<Outcome, Differs> {
    let record = Progress { side: numbers[0], dots: numbers[1], knit: numbers[2] };
    calls.keep(record, &mut given.checkpoints, numbers[3])
}

fn restore(calls: &mut SideBySide, given: &mut Given, numbers: &[u32]) -> Result<Outcome, Differs> {
    let all = whole(&given.sheet);
    let record = sheet_with(numbers, &mut given.sheet);
    calls.restore(record, given.checkpoints, numbers[5], &given.greys, &mut given.sheet, all)
}

fn relay(calls: &mut SideBySide, given: &mut Given, numbers: &[u32]) -> Result<Outcome, Differs> {
    let record = sheet_with(numbers, &mut given.older);
    let room = given.second.len();
    calls.relay(record, &given.older, whole(&given.older), &mut given.second, room)
}

/// The top is wrong before.
fn renew(calls: &mut SideBySide, given: &mut Given, numbers: &[u32]) -> Result<Outcome, Differs> {
    given.sheet.pyramid[0] += 1;
    let length = given.sheet.pyramid.len();
    calls.renew(numbers[0], [numbers[1], numbers[2]], &mut given.sheet.pyramid, length)
}
