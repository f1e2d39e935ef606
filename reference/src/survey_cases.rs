//! The cases of the program crate `survey_cases`: its standard input, and what it ought to write.

use crate::answers::Refusal;
use crate::by_quarters::load;
use crate::case_text::{self, fields, line, record, refusal, InputAndOutput, BEFORE, WIDE};
use crate::knit::{PLAIN, RIBBED};
use crate::maps::named;
use crate::measures::{levels, tally};
use crate::run::run;
use crate::shape::{cell_count, power, pyramid_length};

/// One case: a side, a knit, the greys, the lengths lent of the three other buffers, the cells that get a serial after
/// the load, and the blocks (level, row, column) to tally.
struct Case {
    side: u32,
    knit: u32,
    greys: Vec<u8>,
    pyramid: usize,
    serials: usize,
    order: usize,
    marks: Vec<u32>,
    blocks: Vec<[u32; 3]>,
}

/// Standard input and standard output.
pub fn input_and_output() -> Result<InputAndOutput, Refusal> {
    case_text::input_and_output(&cases()?, |case| written(case).into_bytes(), |case| Ok(answers(case).into_bytes()))
}

/// Whole maps with buffers of just the needed length and with longer ones, then all that is refused.
fn cases() -> Result<Vec<Case>, Refusal> {
    let mut cases = Vec::new();
    for (side, spare) in [(2, 0), (2, 3), (4, 1), (8, 0), (16, 5), (32, 7)] {
        for name in ["random", "gradient-diagonal", "flat-128"] {
            cases.push(finished(side, name, spare)?);
        }
    }
    for side in [0, 1, 3, 5, 12, 31, 33, 64, 256, 257, 512, 999_999] {
        cases.push(Case { side, ..lent(4, [0; 4]) });
    }
    for short in 1..16 {
        cases.push(lent(4, [short & 1, short >> 1 & 1, short >> 2 & 1, short >> 3]));
    }
    cases.push(Case { knit: RIBBED, ..lent(4, [0; 4]) });
    cases.push(Case { knit: RIBBED, ..lent(4, [1, 1, 0, 0]) });
    for knit in [2, 3, 1 << 31, u32::MAX] {
        cases.push(Case { knit, ..lent(4, [0; 4]) });
        cases.push(Case { knit, side: 3, ..lent(4, [0; 4]) });
    }
    for short in [[1, 0, 0, 0], [0, 1, 0, 0], [0, 0, 1, 0], [0, 0, 0, 1], [1, 1, 1, 1]] {
        cases.push(Case { knit: 2, ..lent(4, short) });
    }
    cases.extend(high_greys());
    cases.extend(WIDE.into_iter().flat_map(wide_numbers));
    Ok(cases)
}

/// A map, and the cells of its dots when it's finished.
fn finished(side: u32, name: &str, spare: usize) -> Result<Case, Refusal> {
    let greys = named(name, side);
    let run = run(side, PLAIN, &greys)?;
    let marks = run.buffers.order[..run.progress.dots as usize].to_vec();
    let cells = cell_count(side) + spare;
    let pyramid = pyramid_length(power(side)?) + spare;
    let blocks = blocks(power(side)?);
    Ok(Case { side, knit: PLAIN, greys, pyramid, serials: cells, order: cells, marks, blocks })
}

/// The first, the last and a middle block of each level, and blocks that there aren't.
fn blocks(power: u32) -> Vec<[u32; 3]> {
    let mut blocks = Vec::new();
    for level in 0..=power {
        let last = 2u32.pow(level) - 1;
        blocks.extend([
            [level, 0, 0],
            [level, last / 2, last],
            [level, last, last],
            [level, last + 1, 0],
            [level, 0, last + 1],
        ]);
    }
    blocks.extend([[power + 1, 0, 0], [999_999, 0, 0]]);
    blocks
}

/// A case of a side, plain, with buffers that are so many places short: greys, pyramid, serials, order.
fn lent(side: u32, short: [usize; 4]) -> Case {
    let cells = cell_count(side);
    Case {
        side,
        knit: PLAIN,
        greys: named("random", side)[..cells - short[0]].to_vec(),
        pyramid: pyramid_length(side.trailing_zeros()) - short[1],
        serials: cells - short[2],
        order: cells - short[3],
        marks: vec![0, 5],
        blocks: vec![[0, 0, 0], [3, 0, 0]],
    }
}

/// A grey above 240, the first, the last of the map and one behind it, which is not looked at; then one together with
/// each set of buffers that are too short, with no knit and with no side.
fn high_greys() -> Vec<Case> {
    let with = |case: Case, place: usize, grey: u8| {
        let mut greys = case.greys;
        greys.resize(greys.len().max(place + 1), 255);
        greys[place] = grey;
        Case { greys, ..case }
    };
    let places = [(0, 240), (0, 241), (7, 255), (15, 240), (15, 241), (16, 241), (18, 241)];
    let mut cases: Vec<Case> = places.map(|(place, grey)| with(lent(4, [0; 4]), place, grey)).into();
    cases.push(Case { knit: RIBBED, ..with(lent(4, [0; 4]), 15, 241) });
    for short in 1..16 {
        cases.push(with(lent(4, [short & 1, short >> 1 & 1, short >> 2 & 1, short >> 3]), 3, 241));
    }
    cases.push(Case { knit: 2, ..with(lent(4, [0; 4]), 3, 241) });
    cases.push(Case { knit: 2, ..with(lent(4, [1; 4]), 3, 241) });
    cases.push(Case { side: 3, ..with(lent(4, [0; 4]), 3, 241) });
    cases.push(Case { side: 2, ..with(lent(4, [0; 4]), 4, 241) });
    cases.push(Case { side: 2, ..with(lent(4, [0; 4]), 3, 241) });
    cases
}

/// So much more than a valid number: the side, on three sides, either knit, and the level, row and column of a block.
fn wide_numbers(more: u32) -> Vec<Case> {
    let mut cases = Vec::new();
    for side in [2, 4, 8] {
        let blocks = vec![[0, 0, 0], [1, 1, 1], [1 + more, 1, 1], [1, 1 + more, 1], [1, 1, 1 + more]];
        let marks = vec![3, 0, 2];
        cases.push(Case { marks: marks.clone(), blocks: blocks.clone(), ..lent(side, [0; 4]) });
        cases.push(Case { side: side + more, marks, blocks, ..lent(side, [0; 4]) });
    }
    cases.extend([PLAIN, RIBBED].map(|knit| Case { knit: knit + more, ..lent(4, [0; 4]) }));
    cases
}

/// A case as the program reads it, in four lines: the side, the knit and the lengths lent; the greys; the count of
/// marks and the marks; the count of blocks and the blocks.
fn written(case: &Case) -> String {
    [
        line(&[case.side as usize, case.knit as usize, case.greys.len(), case.pyramid, case.serials, case.order]),
        line(&case.greys),
        format!("{}{}\n", case.marks.len(), fields(&case.marks)),
        format!("{}{}\n", case.blocks.len(), fields(&case.blocks.concat())),
    ]
    .concat()
}

/// What the three calls answer, and the three buffers after the load.
fn answers(case: &Case) -> String {
    let mut pyramid = vec![BEFORE.0; case.pyramid];
    let mut serials = vec![BEFORE.1; case.serials];
    let mut order = vec![BEFORE.1; case.order];
    let loaded = load(case.side, case.knit, &case.greys, &mut pyramid, &mut serials, &mut order);
    let mut text = format!("load{}{}\n", record(loaded.progress), refusal(loaded.status.err()));
    text.push_str(&format!("pyramid{}\n", fields(&pyramid)));
    text.push_str(&format!("serials{}\norder{}\n", fields(&serials), fields(&order)));
    for (place, cell) in case.marks.iter().enumerate() {
        if let Some(serial) = serials.get_mut(*cell as usize) {
            *serial = place as u32 + 1;
        }
    }
    for block in &case.blocks {
        let answer = tally(case.side, &serials, block[0], block[1], block[2]);
        let dots: Vec<u32> = answer.into_iter().collect();
        text.push_str(&format!("tally{}{}{}\n", fields(block), fields(&dots), refusal(answer.err())));
    }
    let sums = levels(case.side, &case.greys, &serials);
    text.push_str(&format!("levels{}{}\n", fields(&sums.unwrap_or([0; 9])), refusal(sums.err())));
    text
}
