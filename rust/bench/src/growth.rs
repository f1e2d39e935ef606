//! What grows with the side: a hole, Load, and the test for a sound sheet, by the library and by `stepped`; at the
//! largest side Load and the test by `plain` too. Of a smaller side so many sheets are worked one after the other that
//! together they have as many cells as side 256; Load and the test, which are short, are repeated besides.

use std::hint::black_box;

use crate::buffers::Buffers;
use crate::clock::{timed, Time};
use crate::engines::{Engine, LIBRARY, PLAIN, STEPPED};
use crate::table::{Row, Unit, MICROSECONDS, NANOSECONDS_A_HOLE};
use crate::turns::{in_turn, Runner};
use crate::{sampled, PLAIN_CLOTH, POWER};

const REPEATS: usize = 32;

/// The powers of the sides 32 to 256.
const POWERS: [usize; 4] = [5, 6, 7, POWER];

/// What is timed of a sheet: a hole, Load, the test of what Load left, and the test of the finished sheet; and which of
/// the Rusts the table has beside the library.
const STRETCHES: [(&str, Unit, &[Engine]); 4] = [
    ("One hole", NANOSECONDS_A_HOLE, &[STEPPED]),
    ("Load alone", MICROSECONDS, &[STEPPED, PLAIN]),
    ("Sound-sheet test alone, after Load", MICROSECONDS, &[STEPPED, PLAIN]),
    ("Sound-sheet test alone, finished sheet", MICROSECONDS, &[STEPPED, PLAIN]),
];

pub fn rows() -> Vec<Row> {
    let times: Vec<Vec<[Time; 4]>> = POWERS.into_iter().map(at_power).collect();
    let mut rows = Vec::new();
    for (stretch, (what, unit, rusts)) in STRETCHES.into_iter().enumerate() {
        for (times, power) in times.iter().zip(POWERS) {
            for (engine, other) in rusts.iter().zip(&times[1..]) {
                rows.push(Row {
                    what: format!("{what}, side {}", 1 << power),
                    unit,
                    library: times[0][stretch],
                    beside: engine.name.to_string(),
                    other: other[stretch],
                });
            }
        }
    }
    rows
}

/// The times of the library, of `stepped`, and at the largest side of `plain`.
fn at_power(power: usize) -> Vec<[Time; 4]> {
    let greys = sampled(power);
    let run = |engine: Engine| {
        let greys = &greys;
        move || stretches(engine, power, greys)
    };
    let (library, stepped, plain) = (run(LIBRARY), run(STEPPED), run(PLAIN));
    let rusts = [Runner { name: STEPPED.name, run: &stepped }, Runner { name: PLAIN.name, run: &plain }];
    let beside = if power == POWER { &rusts[..] } else { &rusts[..1] };
    let (times, _) = in_turn(Runner { name: LIBRARY.name, run: &library }, beside);
    times
}

/// The times of the four stretches, and the holes and buffers that they leave.
fn stretches(engine: Engine, power: usize, greys: &[u8]) -> ([Time; 4], (u32, Vec<Buffers>)) {
    let advance = |dots, budget| move |sheet: &mut Buffers| (engine.advance)(power, PLAIN_CLOTH, dots, budget, sheet);
    let copies = 1 << (2 * (POWER - power));
    let mut sheets: Vec<Buffers> = (0..copies).map(|_| Buffers::cleared(power)).collect();
    let (load, _) = each(REPEATS, &mut sheets, |sheet| {
        (engine.load)(power, PLAIN_CLOTH, greys, sheet);
        0
    });
    let (test, _) = each(REPEATS, &mut sheets, advance(0, 0));
    let (run, dots) = each(1, &mut sheets, advance(0, u32::MAX));
    let (last_test, _) = each(REPEATS, &mut sheets, advance(dots, 0));
    let hole = run.less(test).over(dots as usize);
    ([hole, load, test, last_test], (dots, sheets))
}

/// The time that a call takes on one sheet, from its time on all of them, repeated so often; and the holes that there
/// are then.
fn each(repeats: usize, sheets: &mut [Buffers], call: impl Fn(&mut Buffers) -> u32) -> (Time, u32) {
    let (time, dots) = timed(|| {
        let mut dots = 0;
        for _ in 0..repeats {
            for sheet in &mut *sheets {
                dots = call(black_box(sheet));
            }
        }
        dots
    });
    (time.over(repeats * sheets.len()), dots)
}
