//! Which codes the calls returned at which of the eight sides, which of them on ribbed cloth, and what kinds of
//! comparison, shelf, Keep, Restore, knit, greys, sketch and Two Heads there were; and what the fixed cases showed.

use std::collections::BTreeSet;

use reference::SIDES;

use crate::fixed_kinds::{self, Fixed};
use crate::grey_kinds;
use crate::heads_kinds;
use crate::knit_kinds;
use crate::plate_kinds::{self, Kind};
use crate::sketch_kinds;
use crate::stage_kinds;
use crate::wrong_heads;

/// The codes that each call can return at every side: those of its answers, then those of its refusals. Lower has none,
/// and is noted with 0.
const CODES: [(&str, &[u32]); 17] = [
    ("load", &[0, 11, 2, 3, 4, 12]),
    ("advance", &[0, 100, 11, 3, 4, 5]),
    ("tally", &[0, 4, 6]),
    ("levels", &[0, 2, 4]),
    ("map_text", &[0, 2, 7, 12]),
    ("lower_text", &[0, 2, 7, 8]),
    ("sketch_quote", &[0, 2, 7, 12, 13, 6, 8]),
    ("drill_list", &[0, 11, 3, 4, 5, 8]),
    ("quote_page", &[0, 2, 4, 6, 8]),
    ("sample", &[0, 2]),
    ("compare", &[102, 103, 104, 105, 106, 4]),
    ("shelf", &[0, 4, 8]),
    ("keep", &[0, 10]),
    ("restore", &[0, 11, 2, 3, 4, 5, 12, 10]),
    ("relay", &[0, 11, 3, 4, 5]),
    ("renew", &[0, 101]),
    ("lower", &[0]),
];

/// The codes that Two Heads can return at the sides that are too small for it, and at the others.
const SMALL_CODES: [(&str, &[u32]); 1] = [("two_heads", &[14])];
const LARGE_CODES: [(&str, &[u32]); 1] = [("two_heads", &[0, 11, 2, 3, 4, 12])];

/// The same on ribbed cloth.
const LARGE_RIBBED_CODES: [(&str, &[u32]); 1] = [("two_heads", &[0, 2, 3, 4, 12])];

/// How many of the eight sides are too small for two heads.
const SMALL: usize = 3;

/// The codes that the calls that look at the knit can return at every side on ribbed cloth.
const RIBBED_CODES: [(&str, &[u32]); 5] = [
    ("load", &[0, 2, 3, 4, 12]),
    ("advance", &[0, 100, 3, 4, 5]),
    ("drill_list", &[0, 3, 4, 5, 8]),
    ("restore", &[0, 2, 3, 4, 5, 12, 10]),
    ("relay", &[0, 3, 4, 5]),
];

/// A call, a side and a code.
type Seen = (&'static str, u32, u32);

#[derive(Default)]
pub struct Coverage {
    seen: BTreeSet<Seen>,
    ribbed: BTreeSet<Seen>,
    kinds: BTreeSet<Kind>,
    fixed: BTreeSet<Fixed>,
}

impl Coverage {
    pub fn note(&mut self, call: &'static str, side: u32, code: u32) {
        self.seen.insert((call, side, code));
    }

    /// What a call on ribbed cloth returned.
    pub fn note_ribbed(&mut self, call: &'static str, side: u32, code: u32) {
        self.ribbed.insert((call, side, code));
    }

    pub fn note_kinds(&mut self, kinds: Vec<Kind>) {
        self.kinds.extend(kinds);
    }

    /// What a fixed case showed.
    pub fn note_fixed(&mut self, shown: Fixed) {
        self.fixed.insert(shown);
    }

    /// What the fixed cases had to show, and did not.
    pub fn missing_fixed(&self) -> Vec<Fixed> {
        fixed_kinds::all().into_iter().filter(|wanted| !self.fixed.contains(wanted)).collect()
    }

    /// What has not been seen.
    pub fn missing(&self) -> Vec<Seen> {
        let (small, large) = SIDES.split_at(SMALL);
        let of_heads = [not_seen(&SMALL_CODES, small, &self.seen), not_seen(&LARGE_CODES, large, &self.seen)];
        [not_seen(&CODES, &SIDES, &self.seen), of_heads.concat()].concat()
    }

    /// What has not been seen on ribbed cloth.
    pub fn missing_ribbed(&self) -> Vec<Seen> {
        let (small, large) = SIDES.split_at(SMALL);
        let of_heads =
            [not_seen(&SMALL_CODES, small, &self.ribbed), not_seen(&LARGE_RIBBED_CODES, large, &self.ribbed)];
        [not_seen(&RIBBED_CODES, &SIDES, &self.ribbed), of_heads.concat()].concat()
    }

    /// Whether some kind has not been met yet; once all are, nobody asks of what kinds a call is. Only these are noted.
    pub fn wants_kinds(&self) -> bool {
        self.kinds.len() < all_kinds().count()
    }

    /// The kinds of comparison, shelf, Keep, Restore, knit, greys, sketch and Two Heads that have not been seen.
    pub fn missing_kinds(&self) -> Vec<Kind> {
        all_kinds().filter(|wanted| !self.kinds.contains(wanted)).collect()
    }
}

/// The kinds that have to be met.
fn all_kinds() -> impl Iterator<Item = Kind> {
    let of_sheets = plate_kinds::KINDS.into_iter().chain(stage_kinds::KINDS);
    let of_maps = grey_kinds::KINDS.into_iter().chain(sketch_kinds::KINDS);
    of_sheets.chain(knit_kinds::KINDS).chain(of_maps).chain(heads_kinds::KINDS).chain(wrong_heads::KINDS)
}

/// What a table has, at each of these sides, and was not seen.
fn not_seen(table: &[(&'static str, &[u32])], sides: &[u32], seen: &BTreeSet<Seen>) -> Vec<Seen> {
    let of_call = |(call, codes): &(&'static str, &[u32])| -> Vec<Seen> {
        sides.iter().flat_map(|side| codes.iter().map(|code| (*call, *side, *code))).collect()
    };
    table.iter().flat_map(of_call).filter(|wanted| !seen.contains(wanted)).collect()
}
