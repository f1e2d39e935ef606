//! The cases of the program crate `run_cases`: its standard input, and what it ought to write.

use crate::answers::Refusal;
use crate::by_quarters::{advance, quarter_entry};
use crate::case_text::{self, buffers_before, fields, first_places, line, places, record, refusal};
use crate::case_text::{InputAndOutput, WHOLE, WIDE};
use crate::knit::{PLAIN, RIBBED};
use crate::lowering::HIGHEST;
use crate::maps::sampled;
use crate::shape::{cell_count, pyramid_length, DOT, SIDES};

/// One case: a side, a knit, the greys (listed, or the sample of a seed above 0, lowered), the places that each buffer
/// has past its needed length, and the calls of Advance.
struct Case {
    side: u32,
    knit: u32,
    seed: u32,
    greys: Vec<u8>,
    spare: usize,
    calls: Vec<Call>,
}

/// One call: its budget, the lengths lent (pyramid, serials, order), and what is added at a place of the pyramid
/// before the call.
#[derive(Clone, Copy)]
struct Call {
    budget: u32,
    lent: [usize; 3],
    place: usize,
    amount: i64,
}

/// Standard input and standard output.
pub fn input_and_output() -> Result<InputAndOutput, Refusal> {
    case_text::input_and_output(&cases(), |case| written(case).into_bytes(), |case| Ok(answers(case).into_bytes()))
}

fn cases() -> Vec<Case> {
    let mut cases = plates();
    for (place, side) in SIDES.into_iter().enumerate() {
        let seed = place as u32 + 1;
        cases.push(seeded(side, seed, 0, vec![whole(u32::MAX)]));
        cases.push(seeded(side, seed, place + 1, many(side)));
    }
    for side in [0, 3, 257] {
        cases.push(seeded(side, 1, 0, vec![whole(1)]));
    }
    cases.extend(ribbed());
    cases.extend(no_knits());
    cases.extend(high_greys());
    cases.extend(WIDE.into_iter().flat_map(wide_numbers));
    cases
}

/// So much more than a valid number: the side, either knit, and the budget, than 0 and than 1, on maps on which more
/// holes are due than the valid budget. On the last map more than 256 are due.
fn wide_numbers(more: u32) -> Vec<Case> {
    let mut cases: Vec<Case> = [2, 16].map(|side| seeded(side + more, 1, 0, vec![whole(1)])).into();
    cases.extend([PLAIN, RIBBED].map(|knit| Case { knit: knit + more, ..listed(2, &[128; 4], vec![whole(1)]) }));
    cases.push(listed(2, &[240; 4], vec![whole(0), whole(more), whole(0)]));
    cases.push(listed(4, &[200; 16], vec![whole(1), whole(1 + more), whole(1)]));
    cases.push(seeded(32, 5, 0, vec![whole(more), whole(more)]));
    cases
}

/// Ribbed cloth: maps that are plates on plain cloth too, then the error's division inside, on a side and in a corner,
/// and larger maps in one call and in many.
fn ribbed() -> Vec<Case> {
    let mut cases = vec![
        listed(2, &[240; 4], vec![whole(u32::MAX)]),
        listed(2, &[128; 4], vec![whole(0), whole(1), whole(1), whole(1)]),
        listed(2, &[128, 0, 0, 0], vec![whole(u32::MAX)]),
        lacking(4, 5, 13),
        lacking(4, 1, 7),
        lacking(2, 0, 5),
        listed(4, &[200; 16], vec![whole(5), whole(u32::MAX)]),
    ];
    for (seed, side) in (1..).zip([4, 8, 16, 32]) {
        cases.push(seeded(side, seed, 0, vec![whole(u32::MAX)]));
        cases.push(seeded(side, seed, 1, many(side)));
    }
    cases.into_iter().map(|case| Case { knit: RIBBED, ..case }).collect()
}

/// Numbers that are no knit, for one of the eight sides and for a number that is no side.
fn no_knits() -> Vec<Case> {
    let asked = |side, knit| Case { knit, ..listed(side, &[128; 4], vec![whole(1)]) };
    let mut cases: Vec<Case> = [2, 3, 256, 1 << 31, u32::MAX].map(|knit| asked(2, knit)).into();
    cases.push(Case { knit: 2, ..seeded(3, 1, 0, vec![whole(1)]) });
    cases
}

/// Greys of 240, then one above it: first, in the middle and last, on either knit and together with no knit and no
/// side.
fn high_greys() -> Vec<Case> {
    let with = |side: u32, cell: usize, grey: u8| {
        let mut greys = vec![HIGHEST; cell_count(side)];
        greys[cell] = grey;
        listed(side, &greys, vec![whole(3)])
    };
    let mut cases = vec![with(2, 0, 240), with(4, 0, 240), with(8, 0, 240)];
    for grey in [241, 242, 254, 255] {
        cases.extend([with(2, 0, grey), with(2, 3, grey), with(4, 6, grey), with(8, 63, grey)]);
    }
    cases.extend([PLAIN, RIBBED].map(|knit| Case { knit, ..listed(2, &[255; 4], vec![whole(0), whole(9)]) }));
    cases.extend([RIBBED, 2, u32::MAX].map(|knit| Case { knit, ..with(4, 15, 241) }));
    cases.extend([with(3, 8, 241), Case { knit: 2, ..with(3, 0, 241) }]);
    cases
}

/// A call with whole buffers.
fn whole(budget: u32) -> Call {
    Call { budget, lent: WHOLE, place: 0, amount: 0 }
}

/// P1 to P12, as far as they are of Load and Advance. (P11 is of Levels.)
fn plates() -> Vec<Case> {
    let mut fifteen = [20; 16];
    fifteen[15] = 82;
    let mut sixteen = [20; 16];
    sixteen[15] = 83;
    let one_call = |side: u32, greys: &[u8]| listed(side, greys, vec![whole(u32::MAX)]);
    vec![
        one_call(2, &[0; 4]),
        one_call(2, &[240; 4]),
        one_call(2, &[128; 4]),
        listed(2, &[128; 4], vec![whole(0), whole(1), whole(1), whole(1)]),
        one_call(2, &[127, 0, 0, 0]),
        one_call(2, &[128, 0, 0, 0]),
        lacking(4, 5, 13),
        lacking(4, 1, 7),
        lacking(2, 0, 4),
        one_call(2, &[240, 142, 0, 0]),
        one_call(2, &[240, 143, 0, 0]),
        one_call(4, &fifteen),
        one_call(4, &sixteen),
        listed(2, &[128; 4], vec![added(u32::MAX, 0, 1), added(u32::MAX, 0, -1)]),
    ]
}

fn listed(side: u32, greys: &[u8], calls: Vec<Call>) -> Case {
    Case { side, knit: PLAIN, seed: 0, greys: greys.to_vec(), spare: 2, calls }
}

fn seeded(side: u32, seed: u32, spare: usize, calls: Vec<Call>) -> Case {
    Case { side, knit: PLAIN, seed, greys: Vec::new(), spare, calls }
}

fn added(budget: u32, place: usize, amount: i64) -> Call {
    Call { budget, lent: WHOLE, place, amount }
}

/// One cell of grey 240, to which, and to all entries over it, so much is added that the dot lacks d: the sheet isn't
/// sound until the last of them is changed.
fn lacking(side: u32, cell: usize, d: i64) -> Case {
    let mut greys = vec![0; cell_count(side)];
    greys[cell] = HIGHEST;
    let more = DOT - d - 256 * i64::from(HIGHEST);
    let (row, column) = (cell / side as usize, cell % side as usize);
    let over = |up: u32| quarter_entry(side.trailing_zeros() - up, row >> up, column >> up);
    let calls = (0..=side.trailing_zeros()).map(|up| added(1, over(up), more)).collect();
    listed(side, &greys, calls)
}

/// Small calls with refused ones between them, and one to the end.
fn many(side: u32) -> Vec<Call> {
    let cells = cell_count(side);
    let pyramid = pyramid_length(side.trailing_zeros());
    let lent = |budget: u32, lent: [usize; 3]| Call { budget, lent, place: 0, amount: 0 };
    vec![
        lent(1, [pyramid - 1, cells, cells]),
        lent(1, [pyramid, cells, cells]),
        lent(u32::MAX, [pyramid, cells - 1, cells]),
        lent(u32::MAX, [pyramid, cells, cells - 1]),
        lent(0, [pyramid, cells, cells]),
        added(3, pyramid - 1, 1),
        added(3, pyramid - 1, -1),
        lent(2, [0, 0, 0]),
        lent(side * side / 8, [pyramid + 1, cells + 1, cells]),
        whole(u32::MAX),
        whole(5),
    ]
}

/// A case as the program reads it: a line with the side, the knit, the seed and the places to spare; the greys, if the
/// seed is 0; the count of calls; a line for each call.
fn written(case: &Case) -> String {
    let mut text = line(&[case.side as usize, case.knit as usize, case.seed as usize, case.spare]);
    if case.seed == 0 {
        text.push_str(&line(&case.greys));
    }
    text.push_str(&line(&[case.calls.len()]));
    for call in &case.calls {
        text.push_str(&written_call(call));
    }
    text
}

/// A call as the program reads it: the budget, the lengths lent, the place, and what is added there and taken away.
fn written_call(call: &Call) -> String {
    let plus = call.amount.max(0);
    let minus = plus - call.amount;
    format!("{}{},{},{plus},{minus}\n", call.budget, fields(&call.lent), call.place)
}

/// What the calls answer, and the three buffers after the last.
fn answers(case: &Case) -> String {
    let side = case.side.min(256);
    let greys = if case.seed == 0 { case.greys.clone() } else { sampled(case.seed, cell_count(side)) };
    let mut buffers = buffers_before(side, case.spare);
    let loaded = buffers.load(case.side, case.knit, &greys);
    let mut progress = loaded.progress;
    let mut text = format!("load{}{}\n", record(progress), refusal(loaded.status.err()));
    for call in &case.calls {
        buffers.pyramid[call.place] += call.amount;
        let (pyramid, serials, order) = first_places(&mut buffers, call.lent);
        let answer = advance(progress, call.budget, pyramid, serials, order);
        progress = answer.progress;
        text.push_str(&case_text::call(call.budget, answer));
    }
    text + &places(side, &buffers)
}
