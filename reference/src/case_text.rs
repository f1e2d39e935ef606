//! What the cases of the programs share: numbers parted by commas, and the pair of standard input and output.
//!
//! Where a case gives Load a side, the knit follows it. A record is three numbers wherever it is written: the side, the
//! dots, the knit.

use std::fmt::Display;

use crate::answers::{AdvanceAnswer, Ended, Progress, Refusal};
use crate::run::Buffers;
use crate::shape::{cell_count, power, pyramid_length};

/// What the pyramid's places hold before the load, and those of the serial sheet and the order list.
pub const BEFORE: (i64, u32) = (-1, 9);

/// Longer than any buffer: the whole of it is lent.
pub const WHOLE: [usize; 3] = [99_999; 3];

/// What is added to a valid number of 32 bits: a call that cut it to fewer bits would take it for the valid one.
pub const WIDE: [u32; 4] = [1 << 8, 1 << 16, 1 << 24, 1 << 31];

/// A program's standard input and what it ought to write.
pub type InputAndOutput = (Vec<u8>, Vec<u8>);

/// The input is a line with the count of cases and then each case as the program reads it; the output has a line with
/// its number before the answers of each case.
pub fn input_and_output<C>(
    cases: &[C],
    written: impl Fn(&C) -> Vec<u8>,
    answers: impl Fn(&C) -> Result<Vec<u8>, Refusal>,
) -> Result<InputAndOutput, Refusal> {
    let mut input = line(&[cases.len()]).into_bytes();
    let mut output = Vec::new();
    for (place, case) in cases.iter().enumerate() {
        input.extend(written(case));
        output.extend(format!("case,{}\n", place + 1).into_bytes());
        output.extend(answers(case)?);
    }
    Ok((input, output))
}

/// Items in decimal with commas between them.
pub fn joined<T: Display>(items: &[T]) -> String {
    let texts: Vec<String> = items.iter().map(|item| item.to_string()).collect();
    texts.join(",")
}

/// The same as a line.
pub fn line<T: Display>(items: &[T]) -> String {
    joined(items) + "\n"
}

/// Items in decimal, each after a comma.
pub fn fields<T: Display>(items: &[T]) -> String {
    items.iter().map(|item| format!(",{item}")).collect()
}

/// The end of a line that says no.
pub fn refusal(why: Option<Refusal>) -> String {
    why.map_or(String::new(), |why| format!(",refused,{}", why.number()))
}

/// The buffers of a case before its load, each with places to spare past its needed length; for a number that is no
/// side, with the cells of as many rows and one place for the pyramid.
pub fn buffers_before(side: u32, spare: usize) -> Buffers {
    let cells = cell_count(side) + spare;
    let pyramid = power(side).map_or(1, pyramid_length) + spare;
    Buffers { pyramid: vec![BEFORE.0; pyramid], serials: vec![BEFORE.1; cells], order: vec![BEFORE.1; cells] }
}

/// The first places of each buffer, as many as are lent, or all where there are fewer.
pub fn first_places(buffers: &mut Buffers, lent: [usize; 3]) -> (&mut [i64], &mut [u32], &mut [u32]) {
    let Buffers { pyramid, serials, order } = buffers;
    let [p, s, o] = [pyramid.len().min(lent[0]), serials.len().min(lent[1]), order.len().min(lent[2])];
    (&mut pyramid[..p], &mut serials[..s], &mut order[..o])
}

/// The three buffers, in a case of a side up to 8; else the checksum of each.
pub fn places(side: u32, buffers: &Buffers) -> String {
    let Buffers { pyramid, serials, order } = buffers;
    if side <= 8 {
        return format!("pyramid{}\nserials{}\norder{}\n", fields(pyramid), fields(serials), fields(order));
    }
    let sum = |numbers: &[u32]| checksum(numbers.iter().copied());
    let pyramid = checksum(pyramid.iter().map(|entry| *entry as u32));
    format!("pyramid,{pyramid}\nserials,{}\norder,{}\n", sum(serials), sum(order))
}

/// A checksum over numbers, modulo 2^32.
fn checksum(numbers: impl Iterator<Item = u32>) -> u32 {
    numbers.fold(1u32, |sum, number| sum.wrapping_mul(16_777_619).wrapping_add(number))
}

/// A record, each number after a comma.
pub fn record(progress: Progress) -> String {
    fields(&[progress.side, progress.dots, progress.knit])
}

/// The line for a call of Advance.
pub fn call(budget: u32, answer: AdvanceAnswer) -> String {
    let said = match answer.status {
        Ok(Ended::Finished) => ",finished".to_string(),
        Ok(Ended::More) => ",more".to_string(),
        Err(why) => refusal(Some(why)),
    };
    format!("call,{budget}{},{}{said}\n", record(answer.progress), answer.made)
}
