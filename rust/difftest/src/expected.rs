//! The reference's answers in the same form.

use reference::{Checkpoints, Compared, Ended, Progress, Refusal};

use crate::library::Outcome;

/// The code of "more".
const MORE: u32 = 100;

/// The code of a renewal that isn't promised.
const NOT_RENEWED: u32 = 101;

/// The codes of how two plates compare, from "before" to "after".
const BEFORE: u32 = 102;
const BEFORE_AT: u32 = 103;
const SAME: u32 = 104;
const AFTER_AT: u32 = 105;
const AFTER: u32 = 106;

pub fn load(
    side: u32,
    knit: u32,
    greys: &[u8],
    pyramid: &mut [i64],
    serials: &mut [u32],
    order: &mut [u32],
) -> Outcome {
    let answer = reference::load(side, knit, greys, pyramid, serials, order);
    Outcome { code: code_of(answer.status), values: record(answer.progress) }
}

pub fn advance(
    progress: Progress,
    budget: u32,
    pyramid: &mut [i64],
    serials: &mut [u32],
    order: &mut [u32],
) -> Outcome {
    let answer = reference::advance(progress, budget, pyramid, serials, order);
    let code = match answer.status {
        Ok(Ended::Finished) => 0,
        Ok(Ended::More) => MORE,
        Err(refusal) => refusal.number(),
    };
    Outcome { code, values: [record(answer.progress), vec![answer.made.into()]].concat() }
}

pub fn two_heads(
    side: u32,
    knit: u32,
    greys: &[u8],
    pyramid: &mut [i64],
    serials: &mut [u32],
    order: &mut [u32],
) -> Outcome {
    let answer = reference::two_heads(side, knit, greys, pyramid, serials, order);
    let values = [record(answer.progress), vec![answer.made.into(), answer.debt as u64]].concat();
    Outcome { code: code_of(answer.status), values }
}

pub fn tally(side: u32, serials: &[u32], [level, row, column]: [u32; 3]) -> Outcome {
    let answer = reference::tally(side, serials, level, row, column);
    Outcome { code: code_of(answer), values: vec![answer.unwrap_or(0).into()] }
}

pub fn levels(side: u32, greys: &[u8], serials: &[u32]) -> Outcome {
    let answer = reference::levels(side, greys, serials);
    Outcome { code: code_of(answer), values: answer.unwrap_or([0; 9]).to_vec() }
}

pub fn map_text(text: &[u8], greys: &mut [u8]) -> Outcome {
    let answer = reference::map_text(text, greys);
    Outcome { code: code_of(answer), values: vec![answer.unwrap_or(0).into()] }
}

pub fn lower_text(text: &[u8], greys: &mut [u8], out: &mut [u8]) -> Outcome {
    let answer = reference::lower_text(text, greys, out);
    Outcome { code: code_of(answer), values: vec![answer.unwrap_or(0) as u64] }
}

pub fn sketch_quote(text: &[u8], level: u32, lows: &mut [u8], highs: &mut [u8], caps: &mut [u32]) -> Outcome {
    let answer = reference::sketch_quote(text, level, lows, highs, caps);
    let values = answer.map_or([0; 3], |quote| [quote.side, quote.least, quote.greatest].map(u64::from));
    Outcome { code: code_of(answer), values: values.to_vec() }
}

pub fn drill_list(progress: Progress, pyramid: &[i64], serials: &[u32], order: &[u32], out: &mut [u8]) -> Outcome {
    let answer = reference::drill_list(progress, pyramid, serials, order, out);
    Outcome { code: code_of(answer), values: vec![answer.unwrap_or(0) as u64] }
}

pub fn quote_page(side: u32, greys: &[u8], serials: &[u32], level: u32, out: &mut [u8]) -> Outcome {
    let answer = reference::quote_page(side, greys, serials, level, out);
    Outcome { code: code_of(answer), values: vec![answer.unwrap_or(0) as u64] }
}

pub fn sample(seed: u32, side: u32, greys: &mut [u8]) -> Outcome {
    let answer = reference::sample(seed, side, greys);
    Outcome { code: code_of(answer), values: vec![answer.unwrap_or(0).into()] }
}

pub fn compare(side: u32, left: &[u32], right: &[u32]) -> Outcome {
    let (code, row, column) = match reference::compare(side, left, right) {
        Ok(Compared::Before) => (BEFORE, 0, 0),
        Ok(Compared::BeforeAt(row, column)) => (BEFORE_AT, row, column),
        Ok(Compared::Same) => (SAME, 0, 0),
        Ok(Compared::AfterAt(row, column)) => (AFTER_AT, row, column),
        Ok(Compared::After) => (AFTER, 0, 0),
        Err(refusal) => (refusal.number(), 0, 0),
    };
    Outcome { code, values: vec![row.into(), column.into()] }
}

pub fn shelf(side: u32, n: u32, plates: &[u32], list: &mut [u32]) -> Outcome {
    Outcome { code: code_of(reference::shelf(side, n, plates, list)), values: Vec::new() }
}

pub fn keep(progress: Progress, checkpoints: Checkpoints, name: u32) -> Outcome {
    let answer = reference::keep(progress, checkpoints, name);
    Outcome { code: code_of(answer.status), values: answer.checkpoints.kept.to_vec() }
}

pub fn restore(
    progress: Progress,
    checkpoints: Checkpoints,
    name: u32,
    greys: &[u8],
    pyramid: &mut [i64],
    serials: &mut [u32],
    order: &mut [u32],
) -> Outcome {
    let answer = reference::restore(progress, checkpoints, name, greys, pyramid, serials, order);
    let values = [record(answer.progress), answer.checkpoints.kept.to_vec()].concat();
    Outcome { code: code_of(answer.status), values }
}

pub fn relay(progress: Progress, pyramid: &[i64], serials: &[u32], order: &[u32], second: &mut [i64]) -> Outcome {
    Outcome { code: code_of(reference::relay(progress, pyramid, serials, order, second)), values: Vec::new() }
}

pub fn renew(side: u32, [row, column]: [u32; 2], pyramid: &mut [i64]) -> Outcome {
    let renewed = reference::renew(side, row, column, pyramid);
    Outcome { code: if renewed { 0 } else { NOT_RENEWED }, values: Vec::new() }
}

pub fn lower(greys: &mut [u8]) -> Outcome {
    reference::lower(greys);
    Outcome { code: 0, values: Vec::new() }
}

fn record(progress: Progress) -> Vec<u64> {
    vec![progress.side.into(), progress.dots.into(), progress.knit.into()]
}

fn code_of<T>(answer: Result<T, Refusal>) -> u32 {
    match answer {
        Ok(_) => 0,
        Err(refusal) => refusal.number(),
    }
}
