//! Counts that are kept under names, of 64 bits: 2^31, 2^32 and 2^63 more than one that Restore takes, and others. A
//! call that cut or wrapped them would take them for that one.

use reference::{Checkpoints, Progress};

use crate::parts::{blank, needed, whole};
use crate::side_by_side::{Differs, Sheet, SideBySide};

/// The powers of two by which a count is more.
const BITS: [u32; 7] = [8, 16, 24, 31, 32, 48, 63];

/// The count of one hole.
const ONE: u64 = 2;

/// A map of fewer than 256 holes with all of them made, and each name with each count, at sides that are quick.
pub fn counts_cases(calls: &mut SideBySide) -> Result<(), Differs> {
    for side in [2, 4, 8, 16, 32] {
        let greys: Vec<u8> = (0..needed(side).0).map(|cell| if cell < 256 { 240 } else { 0 }).collect();
        let mut sheet = blank(side, 0);
        let all = whole(&sheet);
        let loaded = calls.load(side, side.trailing_zeros() % 2, &greys, &mut sheet, all)?;
        let record = calls.advance(loaded.progress(), u32::MAX, &mut sheet, all)?.progress();
        for name in 1..=8 {
            for bits in BITS {
                restored(calls, record, name, bits, &greys, &sheet)?;
                kept(calls, record, name, bits)?;
            }
        }
    }
    Ok(())
}

/// What stands under a name, and 0 under the others.
fn under(name: u32, count: u64) -> Checkpoints {
    let mut value = Checkpoints::default();
    value.kept[name as usize - 1] = count;
    value
}

/// Restore takes the count by itself, and refuses it with so much more (S 10.3).
fn restored(
    calls: &mut SideBySide,
    record: Progress,
    name: u32,
    bits: u32,
    greys: &[u8],
    sheet: &Sheet,
) -> Result<(), Differs> {
    let codes = [ONE, ONE + (1 << bits)].map(|count| {
        let mut lent = sheet.clone();
        calls.restore(record, under(name, count), name, greys, &mut lent, whole(sheet)).map(|outcome| outcome.code)
    });
    if codes != [Ok(0), Ok(10)] {
        return Err(format!("restore: a count with 2^{bits} more under {name}: {codes:?}, not 0 and 10"));
    }
    calls.coverage.note_fixed(("restore", "count", bits));
    Ok(())
}

/// Keep gives such a count under another name back as it is, and writes over it under its own name (S 10.1).
fn kept(calls: &mut SideBySide, record: Progress, name: u32, bits: u32) -> Result<(), Differs> {
    let wide = under(name, ONE + (1 << bits));
    let (mut beside, mut over) = (wide, wide);
    let other = name % 8 + 1;
    calls.keep(record, &mut beside, other)?;
    calls.keep(record, &mut over, name)?;
    let count = u64::from(record.dots) + 1;
    let mut expected = wide;
    expected.kept[other as usize - 1] = count;
    if (beside, over) != (expected, under(name, count)) {
        return Err(format!("keep: beside and over a count with 2^{bits} more under {name}: {beside:?}, {over:?}"));
    }
    calls.coverage.note_fixed(("keep", "count", bits));
    Ok(())
}
