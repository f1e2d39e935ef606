//! The cases of the program crate `shelf_cases`: its standard input, and what it ought to write.

use crate::answers::{Compared, Refusal};
use crate::case_text::{self, fields, line, refusal, InputAndOutput, BEFORE, WIDE};
use crate::knit::PLAIN;
use crate::maps::{generated, named, NAMES};
use crate::run::{run, Buffers};
use crate::shape::cell_count;
use crate::shelf::{compare, shelf};

/// One case: a side, the number of plates to put in order, the shelf, the places lent of the list, and the place that
/// parts the shelf into the left and the right sheet to compare.
struct Case {
    side: u32,
    n: u32,
    shelf: Vec<u32>,
    list: usize,
    split: usize,
}

/// Five plates of side 2 and one place more: plates 0 and 2 are burnt alike, and plate 3 not at all.
const FIVE: [u32; 21] = [1, 0, 0, 0, 0, 5, 0, 0, 3, 0, 0, 0, 0, 0, 0, 0, 1, 2, 0, 0, 7];

/// Standard input and standard output.
pub fn input_and_output() -> Result<InputAndOutput, Refusal> {
    case_text::input_and_output(&cases()?, |case| written(case).into_bytes(), |case| Ok(answers(case).into_bytes()))
}

/// Shelves that are put in order, then all that is refused.
fn cases() -> Result<Vec<Case>, Refusal> {
    let mut cases = five_plates();
    cases.extend(pairs());
    cases.extend(finished_plates()?);
    cases.push(stages()?);
    cases.extend(many_plates());
    cases.extend(no_plates());
    cases.extend(refused());
    cases.extend(huge_shelves());
    cases.extend(short_sheets());
    cases.extend(WIDE.into_iter().flat_map(wide_numbers));
    Ok(cases)
}

/// A shelf and a list of just the needed lengths; the first plate is compared with the second.
fn whole(side: u32, plates: &[Vec<u32>]) -> Case {
    Case { side, n: plates.len() as u32, shelf: plates.concat(), list: plates.len(), split: cell_count(side) }
}

/// The first plates of the five, with a list that is longer. Plate 0 is compared with each of the others; then the
/// right sheet is too short, then the left one.
fn five_plates() -> Vec<Case> {
    let mut cases = Vec::new();
    for (n, split) in [(5, 4), (4, 8), (3, 12), (2, 16), (1, 20), (0, 0)] {
        cases.push(Case { side: 2, n, shelf: FIVE.to_vec(), list: 6, split });
    }
    cases
}

/// Two plates of a side that are burnt in these cells, with serials of their own.
fn pair(side: u32, left: &[usize], right: &[usize]) -> Case {
    let plate = |cells: &[usize], first: u32| {
        let mut plate = vec![0; cell_count(side)];
        for (place, cell) in cells.iter().enumerate() {
            plate[*cell] = first - place as u32;
        }
        plate
    };
    whole(side, &[plate(left, 4), plate(right, u32::MAX)])
}

/// Each answer; the last cell alone another, and the last two, once in each direction; and sheets that are alike up to
/// what lies past their cells.
fn pairs() -> Vec<Case> {
    vec![
        pair(2, &[0], &[2, 3]),
        pair(2, &[2, 3], &[0]),
        pair(2, &[1], &[2]),
        pair(2, &[0, 3], &[3, 0]),
        pair(4, &[11], &[9]),
        pair(4, &[1, 6, 12, 14], &[1, 6, 12, 15]),
        pair(8, &[0, 9, 40, 63], &[62, 40, 9, 0]),
        pair(8, &[0, 9, 40, 63], &[0, 9, 40]),
        pair(16, &[254], &[255]),
        Case { side: 2, n: 2, shelf: vec![1, 2, 0, 0, 3, 2, 1, 0, 0, 0], list: 2, split: 5 },
    ]
}

/// The serial sheet of a named map that is finished.
fn finished(side: u32, name: &str) -> Result<Vec<u32>, Refusal> {
    Ok(run(side, PLAIN, &named(name, side))?.buffers.serials)
}

/// Plates of named maps, some of them twice: all maps of side 8, once more from the last to the first with places to
/// spare, and a few maps of larger sides.
fn finished_plates() -> Result<Vec<Case>, Refusal> {
    let plates = |side: u32, names: &[&str]| -> Result<Case, Refusal> {
        let plates: Result<Vec<_>, _> = names.iter().map(|name| finished(side, name)).collect();
        Ok(whole(side, &plates?))
    };
    let names = [&NAMES[..], &["random", "flat-0", "flat-128", "hot-rim"]].concat();
    let backwards: Vec<&str> = names.iter().rev().copied().collect();
    let mut spare = plates(8, &backwards)?;
    spare.shelf.extend([0, 1, 2]);
    spare.list += 3;
    Ok(vec![
        plates(8, &names)?,
        spare,
        plates(16, &["random", "flat-128", "flat-127", "flat-128", "gradient-columns"])?,
        plates(32, &["hot-cell", "flat-1", "flat-0"])?,
        plates(64, &["flat-1"])?,
    ])
}

/// One map after each of its dots, the finished plate first.
fn stages() -> Result<Case, Refusal> {
    let mut buffers = Buffers::new(4)?;
    let mut progress = buffers.load(4, PLAIN, &named("random", 4)).progress;
    let mut plates = vec![buffers.serials.clone()];
    loop {
        let answer = buffers.advance(progress, 1);
        answer.status?;
        if answer.made == 0 {
            plates.reverse();
            return Ok(whole(4, &plates));
        }
        progress = answer.progress;
        plates.push(buffers.serials.clone());
    }
}

/// Plates of side 2 burnt as the bits of these numbers say, the lowest bit for the first cell, each with serials from
/// 1 on.
fn bits(numbers: impl Iterator<Item = u32>) -> Vec<Vec<u32>> {
    numbers.map(|number| (0..4).map(|cell| (number >> cell & 1) * (cell + 1)).collect()).collect()
}

/// So many plates of a side, with about one cell in `rare` burnt, and serials from 1 to 9.
fn drawn(side: u32, count: usize, seed: u32, rare: u8) -> Vec<Vec<u32>> {
    let serial = |byte: &u8| if byte.is_multiple_of(rare) { u32::from(byte / rare % 9) + 1 } else { 0 };
    let bytes = generated(seed, count * cell_count(side));
    bytes.chunks(cell_count(side)).map(|bytes| bytes.iter().map(serial).collect()).collect()
}

/// Dozens of plates: all patterns of side 2 up and down, drawn ones, many that are the same.
fn many_plates() -> Vec<Case> {
    let mut few = drawn(4, 40, 3, 4);
    for place in 3..few.len() {
        few[place] = few[place % 3].iter().map(|serial| serial * (place as u32 + 1)).collect();
    }
    let alike: Vec<Vec<u32>> = (1..=100).map(|serial| vec![0, serial, 0, 101 - serial]).collect();
    vec![
        whole(2, &bits((0..16).chain((0..16).rev()))),
        whole(2, &drawn(2, 64, 2, 2)),
        Case { list: 300, ..whole(2, &drawn(2, 250, 4, 3)) },
        whole(2, &alike),
        whole(4, &few),
        whole(4, &drawn(4, 90, 5, 8)),
    ]
}

/// Shelves without a plate are put in order too.
fn no_plates() -> Vec<Case> {
    vec![
        Case { side: 2, n: 0, shelf: vec![], list: 0, split: 0 },
        Case { side: 256, n: 0, shelf: vec![1, 0], list: 2, split: 1 },
    ]
}

/// Three plates of side 4, each set of the three checks failing, by one; then numbers that are no side.
fn refused() -> Vec<Case> {
    let mut cases = Vec::new();
    for failing in 1..8 {
        let mut case = whole(4, &drawn(4, 3, 6, 2));
        case.side += failing & 1;
        case.shelf.truncate(48 - (failing as usize >> 1 & 1));
        case.list -= failing as usize >> 2;
        cases.push(case);
    }
    for side in [0, 1, 512, u32::MAX] {
        cases.push(Case { side, n: 1, shelf: vec![1; 5], list: 1, split: 2 });
    }
    cases
}

/// Numbers of plates that need 2^32 places and more. In the first and the last case the shelf has as many places as
/// they need modulo 2^32.
fn huge_shelves() -> Vec<Case> {
    vec![
        Case { side: 256, n: 65_536, shelf: vec![], list: 0, split: 0 },
        Case { side: 256, n: u32::MAX, shelf: vec![0; 9], list: 9, split: 0 },
        Case { side: 2, n: (1 << 30) + 1, shelf: vec![1; 8], list: 9, split: 4 },
    ]
}

/// Sheets to compare that are one place short: the left one, the right one.
fn short_sheets() -> Vec<Case> {
    vec![
        Case { side: 2, n: 2, shelf: vec![1; 8], list: 2, split: 3 },
        Case { side: 2, n: 1, shelf: vec![1; 7], list: 2, split: 4 },
    ]
}

/// So much more than a valid number: the side, the number of plates, both on shelves and lists that do for the valid
/// one; and than 0, a serial of the left plate, whose cell is burnt then.
fn wide_numbers(more: u32) -> Vec<Case> {
    let mut cases = Vec::new();
    for side in [2, 4, 8] {
        let plates = drawn(side, 3, 6, 2);
        cases.push(Case { side: side + more, ..whole(side, &plates) });
        cases.push(Case { n: 3 + more, ..whole(side, &plates) });
    }
    let plates = [vec![0, 0, 0, more], vec![0; 4]];
    cases.push(whole(2, &plates));
    cases
}

/// A case as the program reads it: a line with the side, the number of plates, the lengths lent of shelf and list and
/// the split; then the shelf, if it has a place.
fn written(case: &Case) -> String {
    let [side, n] = [case.side, case.n].map(|number| number as usize);
    let mut text = line(&[side, n, case.shelf.len(), case.list, case.split]);
    if !case.shelf.is_empty() {
        text.push_str(&line(&case.shelf));
    }
    text
}

/// What the two calls answer, and the list afterwards.
fn answers(case: &Case) -> String {
    let (left, right) = case.shelf.split_at(case.split);
    let mut list = vec![BEFORE.1; case.list];
    let compared = compare(case.side, left, right);
    let sorted = shelf(case.side, case.n, &case.shelf, &mut list);
    format!("compare{}\nshelf{}\nlist{}\n", said(compared), refusal(sorted.err()), fields(&list))
}

fn said(answer: Result<Compared, Refusal>) -> String {
    match answer {
        Ok(Compared::Before) => ",before".to_string(),
        Ok(Compared::BeforeAt(row, column)) => format!(",before,{row},{column}"),
        Ok(Compared::Same) => ",same".to_string(),
        Ok(Compared::AfterAt(row, column)) => format!(",after,{row},{column}"),
        Ok(Compared::After) => ",after".to_string(),
        Err(why) => refusal(Some(why)),
    }
}
