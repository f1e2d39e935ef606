//! One hole a call, as a controller would make them: 200 holes by as many calls of the library's Advance, beside as
//! many calls of `stepped`, and beside one call; and how much of these calls is the test for a sound sheet, which each
//! begins with. The test is timed on the sheet with half of the holes, by calls of budget 0.

use std::hint::black_box;

use crate::buffers::Buffers;
use crate::clock::{timed, Time};
use crate::engines::{Engine, LIBRARY, STEPPED};
use crate::table::{grouped, Row, MILLISECONDS};
use crate::turns::{in_turn, Runner};
use crate::{sampled, PLAIN_CLOTH, POWER};

const HOLES: u32 = 200;

pub fn rows() -> Vec<Row> {
    let greys = sampled(POWER);
    let (times, _) = in_turn(
        Runner { name: "calls of budget 1", run: &|| on_loaded(LIBRARY, &greys, one_by_one) },
        &[
            Runner { name: "calls of `stepped`", run: &|| on_loaded(STEPPED, &greys, one_by_one) },
            Runner { name: "one call", run: &|| on_loaded(LIBRARY, &greys, at_once) },
            Runner { name: "calls of budget 0", run: &|| on_loaded(LIBRARY, &greys, tests) },
        ],
    );
    let holes = grouped(HOLES as usize);
    let row = |what: String, library: usize, beside: String, other: usize| Row {
        what,
        unit: MILLISECONDS,
        library: times[library][0],
        beside,
        other: times[other][0],
    };
    let by_calls = format!("{holes} holes by {holes} calls of Advance");
    vec![
        row(by_calls.clone(), 0, STEPPED.name.to_string(), 1),
        row(by_calls, 0, "library, one call".to_string(), 2),
        row(format!("{holes} sound-sheet tests, {} holes", HOLES / 2), 3, format!("library, the {holes} calls"), 0),
    ]
}

/// What is timed on a sheet that Load left, and the sheet afterwards.
fn on_loaded(engine: Engine, greys: &[u8], work: fn(Engine, &mut Buffers) -> Time) -> ([Time; 1], Buffers) {
    let mut sheet = Buffers::cleared(POWER);
    (engine.load)(POWER, PLAIN_CLOTH, greys, &mut sheet);
    ([work(engine, &mut sheet)], sheet)
}

/// A call of Advance, which must make as many holes as its budget says.
fn advance(engine: Engine, dots: u32, budget: u32, sheet: &mut Buffers) {
    assert_eq!((engine.advance)(POWER, PLAIN_CLOTH, dots, budget, sheet), dots + budget);
}

fn one_by_one(engine: Engine, sheet: &mut Buffers) -> Time {
    timed(|| (0..HOLES).for_each(|dots| advance(engine, dots, 1, sheet))).0
}

fn at_once(engine: Engine, sheet: &mut Buffers) -> Time {
    timed(|| advance(engine, 0, HOLES, sheet)).0
}

/// Tests as many times as there are holes; the holes themselves are made before and after that.
fn tests(engine: Engine, sheet: &mut Buffers) -> Time {
    let half = HOLES / 2;
    advance(engine, 0, half, sheet);
    let (time, ()) = timed(|| (0..HOLES).for_each(|_| advance(engine, half, 0, black_box(sheet))));
    advance(engine, half, HOLES - half, sheet);
    time
}
