//! The library's calls with their codes, so that what they write on a refusal is compared too.

use reference::{Checkpoints, Progress};
use rulmedei::codes;

/// What a call returned, and what it wrote beside the buffers.
#[derive(Debug, Clone, PartialEq, Eq)]
pub struct Outcome {
    pub code: u32,
    pub values: Vec<u64>,
}

impl Outcome {
    /// The record, of Load, Advance, Two Heads and Restore.
    pub fn progress(&self) -> Progress {
        let [side, dots, knit] = [0, 1, 2].map(|place| self.values[place] as u32);
        Progress { side, dots, knit }
    }
}

pub fn load(
    side: u32,
    knit: u32,
    greys: &[u8],
    pyramid: &mut [i64],
    serials: &mut [u32],
    order: &mut [u32],
) -> Outcome {
    let (code, record) = codes::load(side, knit, greys, pyramid, serials, order);
    Outcome { code, values: numbers(record) }
}

/// The holes made stand behind the record.
pub fn advance(
    progress: Progress,
    budget: u32,
    pyramid: &mut [i64],
    serials: &mut [u32],
    order: &mut [u32],
) -> Outcome {
    let (code, after, made) = codes::advance(ours(progress), budget, pyramid, serials, order);
    Outcome { code, values: [numbers(after), vec![made.into()]].concat() }
}

/// The holes and the debt stand behind the record.
pub fn two_heads(
    side: u32,
    knit: u32,
    greys: &[u8],
    pyramid: &mut [i64],
    serials: &mut [u32],
    order: &mut [u32],
) -> Outcome {
    let (code, end) = codes::two_heads(side, knit, greys, pyramid, serials, order);
    Outcome { code, values: [numbers(end.progress), vec![end.made.into(), end.debt as u64]].concat() }
}

pub fn tally(side: u32, serials: &[u32], [level, row, column]: [u32; 3]) -> Outcome {
    let (code, dots) = codes::tally(side, serials, level, row, column);
    Outcome { code, values: vec![dots.into()] }
}

pub fn levels(side: u32, greys: &[u8], serials: &[u32]) -> Outcome {
    let (code, sums) = codes::levels(side, greys, serials);
    Outcome { code, values: sums.to_vec() }
}

pub fn map_text(text: &[u8], greys: &mut [u8]) -> Outcome {
    let (code, side) = codes::map_text(text, greys);
    Outcome { code, values: vec![side.into()] }
}

pub fn lower_text(text: &[u8], greys: &mut [u8], out: &mut [u8]) -> Outcome {
    let (code, length) = codes::lower_text(text, greys, out);
    Outcome { code, values: vec![length as u64] }
}

/// The side, the least total and the greatest.
pub fn sketch_quote(text: &[u8], level: u32, lows: &mut [u8], highs: &mut [u8], caps: &mut [u32]) -> Outcome {
    let (code, quote) = codes::sketch_quote(text, level, lows, highs, caps);
    Outcome { code, values: [quote.side, quote.least, quote.greatest].map(u64::from).to_vec() }
}

pub fn drill_list(progress: Progress, pyramid: &[i64], serials: &[u32], order: &[u32], out: &mut [u8]) -> Outcome {
    let (code, length) = codes::drill_list(ours(progress), pyramid, serials, order, out);
    Outcome { code, values: vec![length as u64] }
}

pub fn quote_page(side: u32, greys: &[u8], serials: &[u32], level: u32, out: &mut [u8]) -> Outcome {
    let (code, length) = codes::quote_page(side, greys, serials, level, out);
    Outcome { code, values: vec![length as u64] }
}

pub fn sample(seed: u32, side: u32, greys: &mut [u8]) -> Outcome {
    let (code, state) = codes::sample(seed, side, greys);
    Outcome { code, values: vec![state.into()] }
}

pub fn compare(side: u32, left: &[u32], right: &[u32]) -> Outcome {
    let (code, cell) = codes::compare(side, left, right);
    Outcome { code, values: cell.map(u64::from).to_vec() }
}

pub fn shelf(side: u32, n: u32, plates: &[u32], list: &mut [u32]) -> Outcome {
    Outcome { code: codes::shelf(side, n, plates, list), values: Vec::new() }
}

pub fn keep(progress: Progress, checkpoints: Checkpoints, name: u32) -> Outcome {
    let (code, after) = codes::keep(ours(progress), rulmedei::Checkpoints { kept: checkpoints.kept }, name);
    Outcome { code, values: after.kept.to_vec() }
}

/// The value stands behind the record, so that it is seen to stay.
pub fn restore(
    progress: Progress,
    checkpoints: Checkpoints,
    name: u32,
    greys: &[u8],
    pyramid: &mut [i64],
    serials: &mut [u32],
    order: &mut [u32],
) -> Outcome {
    let value = rulmedei::Checkpoints { kept: checkpoints.kept };
    let (code, after) = codes::restore(ours(progress), &value, name, greys, pyramid, serials, order);
    Outcome { code, values: [numbers(after), value.kept.to_vec()].concat() }
}

pub fn relay(progress: Progress, pyramid: &[i64], serials: &[u32], order: &[u32], second: &mut [i64]) -> Outcome {
    Outcome { code: codes::relay(ours(progress), pyramid, serials, order, second), values: Vec::new() }
}

pub fn renew(side: u32, [row, column]: [u32; 2], pyramid: &mut [i64]) -> Outcome {
    Outcome { code: codes::renew(side, row, column, pyramid), values: Vec::new() }
}

/// It has no code, and is always done.
pub fn lower(greys: &mut [u8]) -> Outcome {
    codes::lower(greys);
    Outcome { code: 0, values: Vec::new() }
}

/// The record as the library has it.
fn ours(progress: Progress) -> rulmedei::Progress {
    rulmedei::Progress { side: progress.side, dots: progress.dots, knit: progress.knit }
}

/// The three numbers of a record.
fn numbers(record: rulmedei::Progress) -> Vec<u64> {
    vec![record.side.into(), record.dots.into(), record.knit.into()]
}
