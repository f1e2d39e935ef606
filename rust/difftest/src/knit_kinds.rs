//! Of what kinds a call is by the knit that it is given, told from what was lent and what was answered; and what the
//! cases themselves tell of knits that change between calls.

use reference::{power, sound, Progress, PLAIN, RIBBED};

use crate::parts::needed;
use crate::plate_kinds::{true_ones, Kind};
use crate::side_by_side::{Lent, Sheet};

/// The kinds that have to be met.
pub const KINDS: [Kind; 33] = [
    "load: knit 2",
    "load: knit 2^32 - 1",
    "load: no knit, and no side",
    "load: no knit, and short greys",
    "load: no knit, and a short pyramid",
    "load: no knit, and a short sheet",
    "advance: knit 2",
    "advance: knit 2^32 - 1",
    "advance: no knit, and no side",
    "advance: no knit, and a short pyramid",
    "advance: no knit, and a short sheet",
    "advance: no knit, and not sound",
    "advance: a plain sheet as ribbed",
    "advance: a ribbed sheet as plain",
    "drill_list: knit 2",
    "drill_list: knit 2^32 - 1",
    "drill_list: no knit, and no side",
    "drill_list: no knit, and a short pyramid",
    "drill_list: no knit, and a short sheet",
    "drill_list: no knit, and not sound",
    "drill_list: no knit, and no output",
    "keep: no knit",
    "keep: no knit, and no side",
    "keep: no knit, and no name",
    "restore: knit 2",
    "restore: knit 2^32 - 1",
    "restore: no knit, and no side",
    "restore: no knit, and short greys",
    "restore: no knit, and a short pyramid",
    "restore: no knit, and a short sheet",
    "restore: no knit, and not sound",
    "restore: no knit, and no name",
    "restore: a stage of the other knit",
];

/// What a call finds wrong besides the knit.
struct Wrong {
    side: bool,
    greys: bool,
    pyramid: bool,
    sheet: bool,
    sound: bool,
}

impl Wrong {
    /// For a call that is given a side and lent buffers of these lengths.
    fn lengths(side: u32, greys: Option<&[u8]>, lent: Lent) -> Wrong {
        let (cells, pyramid) = needed(side);
        let known = power(side).is_ok();
        Wrong {
            side: !known,
            greys: known && greys.is_some_and(|greys| greys.len() < cells),
            pyramid: known && lent.pyramid < pyramid,
            sheet: known && (lent.serials < cells || lent.order < cells),
            sound: false,
        }
    }

    /// The same with the sheet looked at, where its lengths will do.
    fn sheet(progress: Progress, greys: Option<&[u8]>, sheet: &Sheet, lent: Lent) -> Wrong {
        let wrong = Wrong::lengths(progress.side, greys, lent);
        let whole = !wrong.side && !wrong.pyramid && !wrong.sheet;
        Wrong { sound: whole && !sound(progress, &sheet.pyramid, &sheet.serials, &sheet.order), ..wrong }
    }
}

fn no_knit(knit: u32) -> bool {
    ![PLAIN, RIBBED].contains(&knit)
}

/// The kinds that a Load is of.
pub fn of_load(side: u32, knit: u32, greys: &[u8], lent: Lent, code: u32) -> Vec<Kind> {
    let (wrong, refused) = (Wrong::lengths(side, Some(greys), lent), code == 11);
    true_ones([
        ("load: knit 2", refused && knit == 2),
        ("load: knit 2^32 - 1", refused && knit == u32::MAX),
        ("load: no knit, and no side", no_knit(knit) && wrong.side),
        ("load: no knit, and short greys", refused && wrong.greys),
        ("load: no knit, and a short pyramid", refused && wrong.pyramid),
        ("load: no knit, and a short sheet", refused && wrong.sheet),
    ])
}

/// The kinds that an Advance is of; the sheet is that before the call.
pub fn of_advance(progress: Progress, sheet: &Sheet, lent: Lent, code: u32) -> Vec<Kind> {
    if !no_knit(progress.knit) {
        return Vec::new();
    }
    let (wrong, refused) = (Wrong::sheet(progress, None, sheet, lent), code == 11);
    true_ones([
        ("advance: knit 2", refused && progress.knit == 2),
        ("advance: knit 2^32 - 1", refused && progress.knit == u32::MAX),
        ("advance: no knit, and no side", wrong.side),
        ("advance: no knit, and a short pyramid", refused && wrong.pyramid),
        ("advance: no knit, and a short sheet", refused && wrong.sheet),
        ("advance: no knit, and not sound", refused && wrong.sound),
    ])
}

/// The kinds that a Drill List is of.
pub fn of_list(progress: Progress, sheet: &Sheet, lent: Lent, room: usize, code: u32) -> Vec<Kind> {
    if !no_knit(progress.knit) {
        return Vec::new();
    }
    let (wrong, refused) = (Wrong::sheet(progress, None, sheet, lent), code == 11);
    true_ones([
        ("drill_list: knit 2", refused && progress.knit == 2),
        ("drill_list: knit 2^32 - 1", refused && progress.knit == u32::MAX),
        ("drill_list: no knit, and no side", wrong.side),
        ("drill_list: no knit, and a short pyramid", refused && wrong.pyramid),
        ("drill_list: no knit, and a short sheet", refused && wrong.sheet),
        ("drill_list: no knit, and not sound", refused && wrong.sound),
        ("drill_list: no knit, and no output", refused && room == 0),
    ])
}

/// The kinds that a Keep is of: it doesn't look at the knit.
pub fn of_keep(progress: Progress, code: u32) -> Vec<Kind> {
    let none = no_knit(progress.knit);
    true_ones([
        ("keep: no knit", none && code == 0),
        ("keep: no knit, and no side", none && code == 1),
        ("keep: no knit, and no name", none && code == 10),
    ])
}

/// The kinds that a Restore is of; the sheet is that before the call.
pub fn of_restore(progress: Progress, name: u32, greys: &[u8], sheet: &Sheet, lent: Lent, code: u32) -> Vec<Kind> {
    if !no_knit(progress.knit) {
        return Vec::new();
    }
    let (wrong, refused) = (Wrong::sheet(progress, Some(greys), sheet, lent), code == 11);
    true_ones([
        ("restore: knit 2", refused && progress.knit == 2),
        ("restore: knit 2^32 - 1", refused && progress.knit == u32::MAX),
        ("restore: no knit, and no side", wrong.side),
        ("restore: no knit, and short greys", refused && wrong.greys),
        ("restore: no knit, and a short pyramid", refused && wrong.pyramid),
        ("restore: no knit, and a short sheet", refused && wrong.sheet),
        ("restore: no knit, and not sound", refused && wrong.sound),
        ("restore: no knit, and no name", refused && !(1..=8).contains(&name)),
    ])
}

/// The kind of an Advance that made holes on a sheet whose holes were made on this other knit.
pub fn changed(from: u32) -> Vec<Kind> {
    vec![if from == PLAIN { "advance: a plain sheet as ribbed" } else { "advance: a ribbed sheet as plain" }]
}

/// The kind of a Restore that was done with another knit than that of the load.
pub fn restored_changed() -> Vec<Kind> {
    vec!["restore: a stage of the other knit"]
}
