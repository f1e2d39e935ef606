//! The calls with their codes, on slices: the number that a call returns (0 for done, 100 for more, 102 to 106 for how
//! two plates compare, else a refusal's), and what it writes beside the buffers. And the renewal by itself, whose
//! number is 0 or 101, and the lowering of greys, which has none.

use crate::c;
use crate::{Checkpoints, Progress, SketchQuote, TwoHeads};

/// What a place for a number holds before a call has written it.
const UNWRITTEN: u32 = u32::MAX;

// Why each unsafe block below is sound. The proofs ask what `include/rulmedei.h` lists. References and slices give it:
// their pointers are aligned, not null, and valid and initialised for the length passed beside them; what is behind a
// `&mut` overlaps nothing else, and nobody else reads or writes it during the call, nor writes what is behind a `&`;
// and all memory of an x86-64 process is less than 2^63 bytes. The declarations are those of the header.

/// The code, and the record.
pub fn load(
    side: u32,
    knit: u32,
    greys: &[u8],
    pyramid: &mut [i64],
    serials: &mut [u32],
    order: &mut [u32],
) -> (u32, Progress) {
    let mut record = Progress { side: UNWRITTEN, dots: UNWRITTEN, knit: UNWRITTEN };
    // SAFETY: each pointer and length is that of a slice, or a reference to a field of a local.
    let code = unsafe {
        c::rulmedei_load(
            side,
            knit,
            greys.as_ptr(),
            greys.len(),
            pyramid.as_mut_ptr(),
            pyramid.len(),
            serials.as_mut_ptr(),
            serials.len(),
            order.as_mut_ptr(),
            order.len(),
            &mut record.side,
            &mut record.dots,
            &mut record.knit,
        )
    };
    (code, record)
}

/// The code, the new record, and the holes made.
pub fn advance(
    progress: Progress,
    budget: u32,
    pyramid: &mut [i64],
    serials: &mut [u32],
    order: &mut [u32],
) -> (u32, Progress, u32) {
    let mut after = Progress { dots: UNWRITTEN, ..progress };
    let mut made = UNWRITTEN;
    // SAFETY: each pointer and length is that of a slice, or a reference to a local or its field.
    let code = unsafe {
        c::rulmedei_advance(
            progress.side,
            progress.dots,
            progress.knit,
            budget,
            pyramid.as_mut_ptr(),
            pyramid.len(),
            serials.as_mut_ptr(),
            serials.len(),
            order.as_mut_ptr(),
            order.len(),
            &mut after.dots,
            &mut made,
        )
    };
    (code, after, made)
}

/// The code, and the record with the holes and the debt.
pub fn two_heads(
    side: u32,
    knit: u32,
    greys: &[u8],
    pyramid: &mut [i64],
    serials: &mut [u32],
    order: &mut [u32],
) -> (u32, TwoHeads) {
    let progress = Progress { side: UNWRITTEN, dots: UNWRITTEN, knit: UNWRITTEN };
    let mut end = TwoHeads { progress, made: UNWRITTEN, debt: UNWRITTEN.into() };
    // SAFETY: each pointer and length is that of a slice, or a reference to a field of a local.
    let code = unsafe {
        c::rulmedei_two_heads(
            side,
            knit,
            greys.as_ptr(),
            greys.len(),
            pyramid.as_mut_ptr(),
            pyramid.len(),
            serials.as_mut_ptr(),
            serials.len(),
            order.as_mut_ptr(),
            order.len(),
            &mut end.progress.side,
            &mut end.progress.dots,
            &mut end.progress.knit,
            &mut end.made,
            &mut end.debt,
        )
    };
    (code, end)
}

/// The code, and the holes of the square.
pub fn tally(side: u32, serials: &[u32], level: u32, row: u32, column: u32) -> (u32, u32) {
    let mut dots = UNWRITTEN;
    // SAFETY: the pointer and length are those of a slice, and `dots` is a local.
    let code = unsafe { c::rulmedei_tally(side, serials.as_ptr(), serials.len(), level, row, column, &mut dots) };
    (code, dots)
}

/// The code, and the nine sums.
pub fn levels(side: u32, greys: &[u8], serials: &[u32]) -> (u32, [u64; 9]) {
    let mut sums = [UNWRITTEN.into(); 9];
    // SAFETY: each pointer and length is that of a slice or of the local array.
    let code = unsafe {
        c::rulmedei_levels(
            side,
            greys.as_ptr(),
            greys.len(),
            serials.as_ptr(),
            serials.len(),
            sums.as_mut_ptr(),
            sums.len(),
        )
    };
    (code, sums)
}

/// The code, and the side.
pub fn map_text(text: &[u8], greys: &mut [u8]) -> (u32, u32) {
    let mut side = UNWRITTEN;
    // SAFETY: each pointer and length is that of a slice, and `side` is a local.
    let code = unsafe { c::rulmedei_map_text(text.as_ptr(), text.len(), greys.as_mut_ptr(), greys.len(), &mut side) };
    (code, side)
}

/// The code, and the text's length.
pub fn lower_text(text: &[u8], greys: &mut [u8], out: &mut [u8]) -> (u32, usize) {
    let mut length = usize::MAX;
    // SAFETY: each pointer and length is that of a slice, and `length` is a local.
    let code = unsafe {
        c::rulmedei_lower_text(
            text.as_ptr(),
            text.len(),
            greys.as_mut_ptr(),
            greys.len(),
            out.as_mut_ptr(),
            out.len(),
            &mut length,
        )
    };
    (code, length)
}

/// The code, and the side with both totals.
pub fn sketch_quote(
    text: &[u8],
    level: u32,
    lows: &mut [u8],
    highs: &mut [u8],
    caps: &mut [u32],
) -> (u32, SketchQuote) {
    let mut quote = SketchQuote { side: UNWRITTEN, least: UNWRITTEN, greatest: UNWRITTEN };
    // SAFETY: each pointer and length is that of a slice, or a reference to a field of a local.
    let code = unsafe {
        c::rulmedei_sketch_quote(
            text.as_ptr(),
            text.len(),
            level,
            lows.as_mut_ptr(),
            lows.len(),
            highs.as_mut_ptr(),
            highs.len(),
            caps.as_mut_ptr(),
            caps.len(),
            &mut quote.side,
            &mut quote.least,
            &mut quote.greatest,
        )
    };
    (code, quote)
}

/// The code, and the list's length.
pub fn drill_list(progress: Progress, pyramid: &[i64], serials: &[u32], order: &[u32], out: &mut [u8]) -> (u32, usize) {
    let mut length = usize::MAX;
    // SAFETY: each pointer and length is that of a slice, and `length` is a local.
    let code = unsafe {
        c::rulmedei_drill_list(
            progress.side,
            progress.dots,
            progress.knit,
            pyramid.as_ptr(),
            pyramid.len(),
            serials.as_ptr(),
            serials.len(),
            order.as_ptr(),
            order.len(),
            out.as_mut_ptr(),
            out.len(),
            &mut length,
        )
    };
    (code, length)
}

/// The code, and the page's length.
pub fn quote_page(side: u32, greys: &[u8], serials: &[u32], level: u32, out: &mut [u8]) -> (u32, usize) {
    let mut length = usize::MAX;
    // SAFETY: each pointer and length is that of a slice, and `length` is a local.
    let code = unsafe {
        c::rulmedei_quote_page(
            side,
            greys.as_ptr(),
            greys.len(),
            serials.as_ptr(),
            serials.len(),
            level,
            out.as_mut_ptr(),
            out.len(),
            &mut length,
        )
    };
    (code, length)
}

/// The code, and the state reached.
pub fn sample(seed: u32, side: u32, greys: &mut [u8]) -> (u32, u32) {
    let mut state = UNWRITTEN;
    // SAFETY: the pointer and length are those of a slice, and `state` is a local.
    let code = unsafe { c::rulmedei_sample(seed, side, greys.as_mut_ptr(), greys.len(), &mut state) };
    (code, state)
}

/// The code, and the cell: its row and column.
pub fn compare(side: u32, left: &[u32], right: &[u32]) -> (u32, [u32; 2]) {
    let [mut row, mut column] = [UNWRITTEN; 2];
    // SAFETY: each pointer and length is that of a slice, and `row` and `column` are locals.
    let code = unsafe {
        c::rulmedei_compare(side, left.as_ptr(), left.len(), right.as_ptr(), right.len(), &mut row, &mut column)
    };
    (code, [row, column])
}

/// The code.
pub fn shelf(side: u32, n: u32, plates: &[u32], list: &mut [u32]) -> u32 {
    // SAFETY: each pointer and length is that of a slice.
    unsafe { c::rulmedei_shelf(side, n, plates.as_ptr(), plates.len(), list.as_mut_ptr(), list.len()) }
}

/// The code, and the counts afterwards.
pub fn keep(progress: Progress, checkpoints: Checkpoints, name: u32) -> (u32, Checkpoints) {
    let mut after = checkpoints;
    // SAFETY: the pointer is a reference to a field of a local.
    let code = unsafe { c::rulmedei_keep(progress.side, progress.dots, progress.knit, &mut after.kept, name) };
    (code, after)
}

/// The code, and the new record.
pub fn restore(
    progress: Progress,
    checkpoints: &Checkpoints,
    name: u32,
    greys: &[u8],
    pyramid: &mut [i64],
    serials: &mut [u32],
    order: &mut [u32],
) -> (u32, Progress) {
    let mut after = Progress { dots: UNWRITTEN, ..progress };
    // SAFETY: each pointer and length is that of a slice, or the pointer a reference to a field.
    let code = unsafe {
        c::rulmedei_restore(
            progress.side,
            progress.dots,
            progress.knit,
            &checkpoints.kept,
            name,
            greys.as_ptr(),
            greys.len(),
            pyramid.as_mut_ptr(),
            pyramid.len(),
            serials.as_mut_ptr(),
            serials.len(),
            order.as_mut_ptr(),
            order.len(),
            &mut after.dots,
        )
    };
    (code, after)
}

/// The code.
pub fn relay(progress: Progress, pyramid: &[i64], serials: &[u32], order: &[u32], second: &mut [i64]) -> u32 {
    // SAFETY: each pointer and length is that of a slice.
    unsafe {
        c::rulmedei_relay(
            progress.side,
            progress.dots,
            progress.knit,
            pyramid.as_ptr(),
            pyramid.len(),
            serials.as_ptr(),
            serials.len(),
            order.as_ptr(),
            order.len(),
            second.as_mut_ptr(),
            second.len(),
        )
    }
}

/// The code: 0 where it renewed, else 101.
pub fn renew(side: u32, row: u32, column: u32, pyramid: &mut [i64]) -> u32 {
    // SAFETY: the pointer and length are those of a slice.
    unsafe { c::rulmedei_renew(side, row, column, pyramid.as_mut_ptr(), pyramid.len()) }
}

/// Always done.
pub fn lower(greys: &mut [u8]) {
    // SAFETY: the pointer and length are those of a slice.
    unsafe { c::rulmedei_lower(greys.as_mut_ptr(), greys.len()) }
}
