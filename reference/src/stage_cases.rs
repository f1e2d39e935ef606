//! The cases of the program crate `stage_cases`: its standard input, and what it ought to write.

use crate::answers::{Checkpoints, Progress, Refusal};
use crate::by_quarters::{advance, restore};
use crate::case_text::{self, buffers_before, fields, first_places, line, places, record, refusal};
use crate::case_text::{InputAndOutput, WHOLE, WIDE};
use crate::checkpoints::keep;
use crate::knit::{PLAIN, RIBBED};
use crate::maps::sampled;
use crate::run::Buffers;
use crate::shape::{cell_count, pyramid_length};

use Action::{Entry, Grey, Keep, Kept, Record};

/// One case: a side, a knit, the greys (listed, or the sample of a seed above 0, lowered), the places that each buffer
/// has past its needed length, and what is done after the load.
struct Case {
    side: u32,
    knit: u32,
    seed: u32,
    greys: Vec<u8>,
    spare: usize,
    actions: Vec<Action>,
}

/// A call, with the lengths that it is lent (pyramid, serials, order), or a change between calls.
#[derive(Clone, Copy)]
enum Action {
    /// Advance with a budget.
    Advance(u32, [usize; 3]),
    /// Keep under a name.
    Keep(u32),
    /// Restore of a name, with all greys.
    Restore(u32, [usize; 3]),
    /// A place of the value becomes this.
    Kept(u32, u64),
    /// A grey becomes this.
    Grey(u32, u8),
    /// The record becomes this.
    Record(u32, u32, u32),
    /// So much is added at a place of the pyramid.
    Entry(u32, i64),
}

/// Standard input and standard output.
pub fn input_and_output() -> Result<InputAndOutput, Refusal> {
    case_text::input_and_output(&cases(), |case| written(case).into_bytes(), |case| Ok(answers(case).into_bytes()))
}

/// Returns that are done, then all that is refused.
fn cases() -> Vec<Case> {
    let mut cases = stages();
    cases.extend(large_sides());
    cases.push(names_kept());
    cases.push(any_dots());
    cases.push(no_dots());
    cases.extend(totals());
    cases.extend(other_greys());
    cases.extend(other_sheets());
    cases.push(no_names());
    cases.push(empty_names());
    cases.push(damaged_values());
    cases.extend([2, 4, 8].map(short_or_unsound));
    cases.extend([3, 257].map(no_side));
    cases.extend(ribbed());
    cases.push(other_knit());
    cases.extend(no_knits());
    cases.extend([2, 4, 8].map(high_greys));
    cases.extend(never_loaded());
    cases.extend(WIDE.into_iter().flat_map(wide_numbers));
    cases.extend([PLAIN, RIBBED].map(wide_counts));
    cases
}

fn listed(side: u32, greys: &[u8], actions: Vec<Action>) -> Case {
    Case { side, knit: PLAIN, seed: 0, greys: greys.to_vec(), spare: 2, actions }
}

fn seeded(side: u32, seed: u32, spare: usize, actions: Vec<Action>) -> Case {
    Case { side, knit: PLAIN, seed, greys: Vec::new(), spare, actions }
}

/// Advance with whole buffers.
fn dots(budget: u32) -> Action {
    Action::Advance(budget, WHOLE)
}

/// Restore with whole buffers.
fn back(name: u32) -> Action {
    Action::Restore(name, WHOLE)
}

/// Names 1, 2, 7 and 8 for the map before its first dot, after one, after some more, and at its end; then returns to
/// the names given, one after another.
fn kept_and_returned(some: u32, names: &[u32]) -> Vec<Action> {
    let mut actions = vec![Keep(1), dots(1), Keep(2), dots(some), Keep(7), dots(u32::MAX), Keep(8)];
    actions.extend(names.iter().map(|name| back(*name)));
    actions
}

/// Ways through the stages, from the end of the map. The buffers are written after the last return, which goes back or
/// forwards, near or far.
const WAYS: [&[u32]; 4] = [&[1], &[1, 2], &[2, 1, 8, 7], &[7, 2, 8]];

/// Small maps, to each of their stages; some of them flat, where quarters and cells are equal. Then one that goes on
/// from a stage.
fn stages() -> Vec<Case> {
    let mut cases = Vec::new();
    for names in WAYS {
        cases.push(listed(2, &[128; 4], kept_and_returned(0, names)));
        cases.push(listed(4, &[200; 16], kept_and_returned(5, names)));
        cases.push(seeded(8, 3, 1, kept_and_returned(9, names)));
    }
    let mut on = kept_and_returned(3, &[7]);
    on.extend([dots(2), Keep(7), dots(1), back(2), dots(1), back(7), dots(0), dots(1)]);
    cases.push(seeded(4, 7, 0, on));
    cases
}

fn large_sides() -> Vec<Case> {
    vec![
        seeded(16, 4, 0, kept_and_returned(40, WAYS[1])),
        seeded(16, 5, 3, kept_and_returned(40, WAYS[2])),
        seeded(32, 6, 1, kept_and_returned(99, WAYS[3])),
        seeded(64, 7, 2, kept_and_returned(600, &[1, 7])),
    ]
}

/// Every name once, another number of dots under each; then three of them again, with more and with fewer.
fn names_kept() -> Case {
    let mut actions = Vec::new();
    for name in [3, 8, 1, 6, 4, 2, 7, 5] {
        actions.extend([Keep(name), dots(1)]);
    }
    actions.extend([Keep(8), back(6), Keep(7), Keep(1), dots(1), back(4), back(1), back(5)]);
    seeded(4, 9, 0, actions)
}

/// Keep looks at no sheet: any number of dots, and any of the eight sides.
fn any_dots() -> Case {
    let records = [(2, u32::MAX), (2, u32::MAX - 1), (4, 65_536), (256, 65_537), (128, 5), (64, 1 << 31)];
    let mut actions: Vec<Action> =
        records.iter().zip(2..).flat_map(|(record, name)| [Record(record.0, record.1, PLAIN), Keep(name)]).collect();
    // the number is given back with the record, and is too large for every map
    let (none, most) = (Record(2, 0, PLAIN), Record(2, u32::MAX, PLAIN));
    actions.extend([none, back(2), back(3), most, Keep(9), back(2)]);
    listed(2, &[240; 4], actions)
}

/// A map without a dot: none is kept, and returned to; one is too many.
fn no_dots() -> Case {
    let actions = vec![dots(1), Keep(3), back(3), back(2), Kept(1, 2), back(2), Kept(1, 1), back(2), back(3)];
    listed(2, &[0; 4], actions)
}

/// One dot more than the total, as many, one fewer; for grey sums on either side of a half, and for the darkest map.
fn totals() -> Vec<Case> {
    let asked = |greys: &[u8], total: u64| {
        let entries = [total + 2, total + 1, total, total + 2].map(|entry| [Kept(5, entry), back(6)]);
        listed(if greys.len() == 4 { 2 } else { 4 }, greys, entries.concat())
    };
    let mut low = [20; 16];
    low[15] = 82;
    vec![asked(&[240, 142, 0, 0], 1), asked(&[240, 143, 0, 0], 2), asked(&low, 1), asked(&[240; 16], 15)]
}

/// Greys that were not loaded, with a larger total and with a smaller one; and the greys and buffers of side 4 for a
/// record of side 2, so that only the first greys count, though later ones are above 240, and more places stay.
fn other_greys() -> Vec<Case> {
    let darker = [Grey(0, 240), Grey(5, 240), Grey(6, 200), Grey(15, 90)];
    let lighter = [Grey(0, 0), Grey(1, 0), Grey(2, 200)];
    let kept = [dots(1), Keep(1), dots(2), Keep(2), dots(9), Keep(3)];
    let smaller = [Record(2, 0, PLAIN), Grey(4, 241), Grey(15, 255), Kept(0, 4), Kept(1, 3), Kept(7, 2)];
    let row = [127, 127, 127, 127, 0, 0, 0, 0, 240, 0, 240, 0, 0, 0, 0, 0];
    vec![
        listed(4, &[0; 16], [&darker[..], &[Kept(3, 4), Kept(4, 5), back(5), back(4)]].concat()),
        listed(2, &[240, 240, 240, 0], [&kept[..], &lighter, &[back(3), back(2), back(1)]].concat()),
        listed(4, &row, [&smaller[..], &[back(1), back(2), back(8), dots(1)]].concat()),
    ]
}

/// Sheets that no Load made: a residual and the top are less, and all is sound; a burnt cell has a residual, first
/// without the top, then with it; the top alone is another, and then right again.
fn other_sheets() -> Vec<Case> {
    let kept = [dots(1), Keep(4), dots(1), Keep(5)];
    let wrong = [Entry(4, 1), back(4), back(9), back(6), Entry(0, 1), back(5)];
    let top = [Entry(0, -256), back(4), back(0), Keep(6), dots(1), Entry(0, 256), back(6), back(4)];
    vec![
        listed(2, &[128; 4], [&kept[..], &[Entry(2, -900), Entry(0, -900), back(5), dots(1)]].concat()),
        listed(2, &[200; 4], [&kept[..], &wrong].concat()),
        listed(2, &[240; 4], [&kept[..], &top].concat()),
    ]
}

/// Numbers that are no name, with a sheet and a value on which every name could be returned to.
fn no_names() -> Case {
    let mut actions = vec![dots(2)];
    actions.extend((0..8).map(|place| Kept(place, 2 + u64::from(place) % 2)));
    for name in [0, 9, 10, 16, 255, 256, 257, 1 << 31, (1 << 31) + 1, u32::MAX] {
        actions.extend([Keep(name), back(name)]);
    }
    listed(2, &[200; 4], actions)
}

/// A return to each name while all are empty, then while all but one are.
fn empty_names() -> Case {
    let mut actions = vec![dots(1)];
    actions.extend((1..=8).map(back));
    actions.extend([Keep(5), dots(1)]);
    for name in 1..=8 {
        actions.extend([back(name), dots(1)]);
    }
    listed(2, &[200; 4], actions)
}

/// Entries that no Keep makes on a map: too large, also where the lower half alone would do.
fn damaged_values() -> Case {
    let entries = [u64::MAX, 1 << 32, (1 << 32) + 1, (1 << 32) + 2, 1 << 63, (1 << 63) + 2, 1 << 31, 65_537];
    let mut actions = vec![dots(1)];
    actions.extend((0..).zip(entries).map(|(place, entry)| Kept(place, entry)));
    actions.extend((1..=8).map(back));
    actions.extend([Keep(4), dots(1), back(4), back(3)]);
    listed(2, &[128; 4], actions)
}

/// Every pair of checks failing, and more of them: records of no side, of a larger side, for which the greys are too
/// few, and of another number of dots; lengths that are one place short; names that are none, that are empty, and that
/// have too many dots. At last just the needed lengths, and the record as it was.
fn short_or_unsound(side: u32) -> Case {
    let (n, p) = (cell_count(side), pyramid_length(side.trailing_zeros()));
    let lengths = [[p, n, n], [p - 1, n, n], [p, n - 1, n], [p, n, n - 1], [p - 1, n - 1, n], [0, 0, 0]];
    let mut actions = vec![dots(2), Keep(2), dots(1), Kept(6, 90)];
    for asked in [(side + 1, 2), (2 * side, 3), (side, 2), (side, 3)] {
        actions.push(Record(asked.0, asked.1, PLAIN));
        for lent in lengths.into_iter().rev() {
            actions.extend([0, 3, 7, 2].map(|name| Action::Restore(name, lent)));
            actions.push(Action::Advance(0, lent));
        }
        actions.extend([Keep(9), Keep(8)]);
    }
    Case { spare: 1, ..listed(side, &vec![220; n], actions) }
}

/// Load refuses, and so does all else, though a value and a name are given that would do.
fn no_side(side: u32) -> Case {
    let asked = Record(side, 0, PLAIN);
    seeded(side, 1, 0, vec![Keep(1), Keep(9), Kept(0, 1), back(1), back(9), asked, Keep(2), back(1), dots(1)])
}

/// Ribbed cloth: returns on small maps and on a larger one, and on to the end from a stage.
fn ribbed() -> Vec<Case> {
    let mut on = kept_and_returned(3, &[7]);
    on.extend([dots(2), Keep(7), back(2), dots(1), back(7), dots(u32::MAX)]);
    let cases = [
        listed(2, &[128; 4], kept_and_returned(0, WAYS[2])),
        listed(4, &[200; 16], kept_and_returned(5, WAYS[3])),
        seeded(8, 3, 1, kept_and_returned(9, WAYS[1])),
        seeded(16, 4, 0, kept_and_returned(40, WAYS[2])),
        seeded(4, 7, 0, on),
    ];
    cases.map(|case| Case { knit: RIBBED, ..case }).into()
}

/// The record's knit becomes the other one between calls: the sheet stays sound, later dots are diffused by the new
/// knit, and a return makes the sheet that its greys have on that knit.
fn other_knit() -> Case {
    let mut actions = vec![dots(2), Keep(1), dots(1), Record(4, 3, RIBBED), dots(2), Keep(2), back(1), dots(4)];
    actions.extend([Record(4, 6, PLAIN), dots(1), back(2), Record(4, 5, RIBBED), dots(u32::MAX), back(1)]);
    seeded(4, 11, 1, actions)
}

/// Numbers that are no knit, for Load and then in the record. Advance and Restore look at the knit after the side and
/// before all lengths, the sheet and the name; Keep doesn't look at it, and gives it back.
fn no_knits() -> Vec<Case> {
    let mut actions = vec![dots(1), Keep(1), dots(1)];
    for knit in [2, u32::MAX] {
        for (side, dots) in [(2, 2), (2, 1), (4, 2), (3, 2)] {
            actions.push(Record(side, dots, knit));
            for lent in [WHOLE, [4, 4, 4], [5, 3, 4], [5, 4, 3]] {
                actions.extend([Action::Advance(1, lent), Action::Restore(1, lent)]);
            }
            actions.extend([back(9), back(2), Keep(9), Keep(3), back(1)]);
        }
    }
    actions.extend([Record(2, 2, PLAIN), back(1), dots(1)]);
    let refused = |knit| Case { knit, ..listed(2, &[200; 4], vec![dots(1), Keep(1), back(1)]) };
    vec![listed(2, &[200; 4], actions), refused(2), refused(u32::MAX), Case { knit: 2, ..no_side(3) }]
}

/// A grey above 240 on a return: by itself, in each corner of the map; together with each other check failing, and with
/// more of them. The name is looked at later; all else comes before.
fn high_greys(side: u32) -> Case {
    let (n, p) = (cell_count(side), pyramid_length(side.trailing_zeros()));
    let last = n as u32 - 1;
    let mut actions = vec![dots(2), Keep(2), dots(1), Kept(6, 90)];
    for (cell, grey) in [(0, 241), (side - 1, 255), (last + 1 - side, 242), (last, 241)] {
        actions.extend([Grey(cell, grey), back(2), back(9), back(3), back(7), Grey(cell, 240), back(2), dots(1)]);
    }
    actions.push(Grey(last, 241));
    for lent in [[0, 0, 0], [p - 1, n, n], [p, n - 1, n], [p, n, n - 1]] {
        actions.extend([2, 9, 3].map(|name| Action::Restore(name, lent)));
    }
    let no_dots = Record(side, 0, PLAIN);
    for asked in [Record(side + 1, 3, PLAIN), Record(2 * side, 3, PLAIN), Record(side, 3, 2), no_dots] {
        actions.extend([asked, back(2), back(9), back(3)]);
    }
    actions.extend([Record(side, 3, RIBBED), back(2), Record(side, 3, PLAIN), dots(1), Keep(1), back(1)]);
    Case { spare: 1, ..listed(side, &vec![220; n], actions) }
}

/// Greys that Load refuses: the record stays without a side. With one made up there is no sheet, and with a sheet of
/// lower greys there is one.
fn never_loaded() -> Vec<Case> {
    let high = [240, 240, 240, 241];
    let made_up = vec![dots(1), Keep(1), back(1), Record(2, 0, PLAIN), dots(1), Keep(1), back(1), back(9)];
    let lowered = vec![Keep(1), Grey(3, 255), back(1), dots(2), Keep(2), back(2), Grey(3, 240), back(2), back(1)];
    vec![
        listed(2, &high, made_up.clone()),
        Case { knit: RIBBED, ..listed(2, &high, made_up) },
        listed(2, &[240; 4], lowered.clone()),
        Case { knit: RIBBED, ..listed(2, &[240; 4], lowered) },
    ]
}

/// So much more than a valid number: Load's side and knit; then, on sheets that are sound for the valid record, the
/// record's side, dots and knit for Advance, Keep and Restore, their names, and the budget, on a map on which more
/// holes are due than the valid one.
fn wide_numbers(more: u32) -> Vec<Case> {
    let refused = vec![dots(1), Keep(1), back(1)];
    let mut cases = vec![seeded(2 + more, 1, 0, refused.clone())];
    cases.extend([PLAIN, RIBBED].map(|knit| Case { knit: knit + more, ..listed(2, &[200; 4], refused.clone()) }));
    for (side, knit) in [(2, PLAIN), (2, RIBBED), (4, PLAIN), (4, RIBBED)] {
        let mut actions = vec![dots(1), Keep(1), dots(1), Keep(8)];
        for (record, name) in [(side + more, 2, knit), (side, 2 + more, knit), (side, 2, knit + more)].iter().zip(2..) {
            actions.push(Record(record.0, record.1, record.2));
            actions.extend([dots(1), back(1), Keep(name), back(name)]);
        }
        actions.push(Record(side, 2, knit));
        actions.extend([1, 4, 8].map(|name| [Keep(name + more), back(name + more)]).concat());
        actions.extend([dots(more), back(1), dots(0), dots(1 + more), back(8)]);
        cases.push(Case { knit, ..listed(side, &vec![240; cell_count(side)], actions) });
    }
    cases
}

/// Counts that are more than one hole's by 2^8, 2^16, 2^24, 2^31, 2^32, 2^48, 2^62 and 2^63, under a name each: Restore
/// refuses all of them, and takes the count by itself; Keep leaves them and writes over one.
fn wide_counts(knit: u32) -> Case {
    let mut actions = vec![dots(u32::MAX)];
    for (place, bits) in (0..).zip([8, 16, 24, 31, 32, 48, 62, 63]) {
        actions.extend([Kept(place, 2 + (1 << bits)), back(place + 1), Kept(place, 2), back(place + 1)]);
        actions.extend([dots(u32::MAX), Kept(place, 2 + (1 << bits)), back(place + 1)]);
    }
    actions.extend([Keep(8), back(8), back(1), back(7)]);
    Case { knit, ..listed(4, &[220; 16], actions) }
}

/// A case as the program reads it: a line with the side, the knit, the seed and the places to spare; the greys, if the
/// seed is 0; the count of actions; a line of five numbers for each of them.
fn written(case: &Case) -> String {
    let mut text = line(&[case.side as usize, case.knit as usize, case.seed as usize, case.spare]);
    if case.seed == 0 {
        text.push_str(&line(&case.greys));
    }
    text.push_str(&line(&[case.actions.len()]));
    for action in &case.actions {
        text.push_str(&line(&numbers(*action)));
    }
    text
}

/// An action as the program reads it: its kind and four numbers.
fn numbers(action: Action) -> [u64; 5] {
    match action {
        Action::Advance(budget, [p, s, o]) => [0, budget.into(), p as u64, s as u64, o as u64],
        Keep(name) => [1, name.into(), 0, 0, 0],
        Action::Restore(name, [p, s, o]) => [2, name.into(), p as u64, s as u64, o as u64],
        Kept(place, entry) => [3, entry % (1 << 32), place.into(), entry >> 32, 0],
        Grey(cell, grey) => [4, grey.into(), cell.into(), 0, 0],
        Record(side, dots, knit) => [5, side.into(), dots.into(), knit.into(), 0],
        Entry(place, amount) => [6, 0, place.into(), amount.max(0) as u64, (-amount).max(0) as u64],
    }
}

/// What the actions are done on.
struct State {
    greys: Vec<u8>,
    buffers: Buffers,
    progress: Progress,
    checkpoints: Checkpoints,
}

/// What the calls answer; the value and the three buffers after the last action.
fn answers(case: &Case) -> String {
    let side = case.side.min(256);
    let greys = if case.seed == 0 { case.greys.clone() } else { sampled(case.seed, cell_count(side)) };
    let mut buffers = buffers_before(side, case.spare);
    let loaded = buffers.load(case.side, case.knit, &greys);
    let mut text = format!("load{}{}\n", record(loaded.progress), refusal(loaded.status.err()));
    let mut state = State { greys, buffers, progress: loaded.progress, checkpoints: Checkpoints::default() };
    for action in &case.actions {
        text.push_str(&state.done(*action));
    }
    text + &format!("kept{}\n", fields(&state.checkpoints.kept)) + &places(side, &state.buffers)
}

impl State {
    /// Does an action; the line for a call, and nothing for a change.
    fn done(&mut self, action: Action) -> String {
        match action {
            Action::Advance(budget, lent) => {
                let (pyramid, serials, order) = first_places(&mut self.buffers, lent);
                let answer = advance(self.progress, budget, pyramid, serials, order);
                self.progress = answer.progress;
                return case_text::call(budget, answer);
            }
            Keep(name) => {
                let answer = keep(self.progress, self.checkpoints, name);
                (self.progress, self.checkpoints) = (answer.progress, answer.checkpoints);
                return format!("keep,{name}{}\n", refusal(answer.status.err()));
            }
            Action::Restore(name, lent) => {
                let (pyramid, serials, order) = first_places(&mut self.buffers, lent);
                let answer = restore(self.progress, self.checkpoints, name, &self.greys, pyramid, serials, order);
                (self.progress, self.checkpoints) = (answer.progress, answer.checkpoints);
                return format!("restore,{name}{}{}\n", record(self.progress), refusal(answer.status.err()));
            }
            Kept(place, entry) => self.checkpoints.kept[place as usize] = entry,
            Grey(cell, grey) => self.greys[cell as usize] = grey,
            Record(side, dots, knit) => self.progress = Progress { side, dots, knit },
            Entry(place, amount) => self.buffers.pyramid[place as usize] += amount,
        }
        String::new()
    }
}
