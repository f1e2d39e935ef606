//! Each call made twice on the same inputs, by the library and by the reference: every answer and every buffer is
//! compared.

use std::collections::BTreeMap;
use std::fmt::Debug;

use reference::{Checkpoints, Progress, RIBBED};

use crate::coverage::Coverage;
use crate::expected;
use crate::grey_kinds;
use crate::heads_kinds;
use crate::knit_kinds;
use crate::library::{self, Outcome};
use crate::plate_kinds;
use crate::sketch_kinds;
use crate::stage_kinds;

/// The three buffers of a sheet, whole.
#[derive(Debug, Clone, PartialEq, Eq)]
pub struct Sheet {
    pub pyramid: Vec<i64>,
    pub serials: Vec<u32>,
    pub order: Vec<u32>,
}

/// How many places of each buffer are lent.
#[derive(Debug, Clone, Copy)]
pub struct Lent {
    pub pyramid: usize,
    pub serials: usize,
    pub order: usize,
}

/// The three buffers of Sketch Quote, whole.
#[derive(Debug, Clone, PartialEq, Eq)]
pub struct Quoted {
    pub lows: Vec<u8>,
    pub highs: Vec<u8>,
    pub caps: Vec<u32>,
}

/// The calls compared so far, by name and code; and which codes they returned at which sides.
#[derive(Default)]
pub struct SideBySide {
    pub calls: BTreeMap<(&'static str, u32), u64>,
    pub coverage: Coverage,
}

/// What differs, in words.
pub type Differs = String;

impl SideBySide {
    pub fn total(&self) -> u64 {
        self.calls.values().sum()
    }

    pub fn load(
        &mut self,
        side: u32,
        knit: u32,
        greys: &[u8],
        sheet: &mut Sheet,
        lent: Lent,
    ) -> Result<Outcome, Differs> {
        let before = sheet.clone();
        let mut other = sheet.clone();
        let ours = library::load(
            side,
            knit,
            greys,
            &mut sheet.pyramid[..lent.pyramid],
            &mut sheet.serials[..lent.serials],
            &mut sheet.order[..lent.order],
        );
        let theirs = expected::load(
            side,
            knit,
            greys,
            &mut other.pyramid[..lent.pyramid],
            &mut other.serials[..lent.serials],
            &mut other.order[..lent.order],
        );
        let inputs = (side, knit, greys, &before, lent);
        self.agreed("load", &inputs, (&ours, &*sheet), (&theirs, &other))?;
        if self.coverage.wants_kinds() {
            self.coverage.note_kinds(knit_kinds::of_load(side, knit, greys, lent, ours.code));
            self.coverage.note_kinds(grey_kinds::of_load(side, greys, ours.code));
        }
        self.counted_on(knit, "load", side, ours)
    }

    pub fn advance(
        &mut self,
        progress: Progress,
        budget: u32,
        sheet: &mut Sheet,
        lent: Lent,
    ) -> Result<Outcome, Differs> {
        let before = sheet.clone();
        let mut other = sheet.clone();
        let ours = library::advance(
            progress,
            budget,
            &mut sheet.pyramid[..lent.pyramid],
            &mut sheet.serials[..lent.serials],
            &mut sheet.order[..lent.order],
        );
        let theirs = expected::advance(
            progress,
            budget,
            &mut other.pyramid[..lent.pyramid],
            &mut other.serials[..lent.serials],
            &mut other.order[..lent.order],
        );
        let inputs = (progress, budget, &before, lent);
        self.agreed("advance", &inputs, (&ours, &*sheet), (&theirs, &other))?;
        if self.coverage.wants_kinds() {
            self.coverage.note_kinds(knit_kinds::of_advance(progress, &before, lent, ours.code));
        }
        // an answer without a hole made says little about a side, so it is noted under none
        let idle = matches!(ours.code, 0 | 100) && ours.values[3] == 0;
        self.counted_on(progress.knit, "advance", if idle { 0 } else { progress.side }, ours)
    }

    pub fn two_heads(
        &mut self,
        side: u32,
        knit: u32,
        greys: &[u8],
        sheet: &mut Sheet,
        lent: Lent,
    ) -> Result<Outcome, Differs> {
        let before = sheet.clone();
        let mut other = sheet.clone();
        let ours = library::two_heads(
            side,
            knit,
            greys,
            &mut sheet.pyramid[..lent.pyramid],
            &mut sheet.serials[..lent.serials],
            &mut sheet.order[..lent.order],
        );
        let theirs = expected::two_heads(
            side,
            knit,
            greys,
            &mut other.pyramid[..lent.pyramid],
            &mut other.serials[..lent.serials],
            &mut other.order[..lent.order],
        );
        let inputs = (side, knit, greys, &before, lent);
        self.agreed("two_heads", &inputs, (&ours, &*sheet), (&theirs, &other))?;
        if self.coverage.wants_kinds() {
            self.coverage.note_kinds(heads_kinds::of_two_heads(side, knit, greys, sheet, lent, &ours));
        }
        self.counted_on(knit, "two_heads", side, ours)
    }

    pub fn tally(&mut self, side: u32, serials: &[u32], block: [u32; 3]) -> Result<Outcome, Differs> {
        let ours = library::tally(side, serials, block);
        let theirs = expected::tally(side, serials, block);
        self.agreed("tally", &(side, serials, block), &ours, &theirs)?;
        self.counted("tally", side, ours)
    }

    pub fn levels(&mut self, side: u32, greys: &[u8], serials: &[u32]) -> Result<Outcome, Differs> {
        let ours = library::levels(side, greys, serials);
        let theirs = expected::levels(side, greys, serials);
        self.agreed("levels", &(side, greys, serials), &ours, &theirs)?;
        self.counted("levels", side, ours)
    }

    /// The side is the one that the text is about, under which a refusal is noted.
    pub fn map_text(&mut self, side: u32, text: &[u8], greys: &mut [u8]) -> Result<Outcome, Differs> {
        let before = greys.to_vec();
        let mut other = greys.to_vec();
        let ours = library::map_text(text, greys);
        let theirs = expected::map_text(text, &mut other);
        self.agreed("map_text", &(text, &before), (&ours, &*greys), (&theirs, &other[..]))?;
        if self.coverage.wants_kinds() {
            self.coverage.note_kinds(grey_kinds::of_map_text(text, ours.code));
            self.coverage.note_kinds(sketch_kinds::of_map_text(text, ours.code));
        }
        let side = if ours.code == 0 { ours.values[0] as u32 } else { side };
        self.counted("map_text", side, ours)
    }

    /// The side is the one that the text is about, under which every answer is noted.
    pub fn lower_text(&mut self, side: u32, text: &[u8], greys: &mut [u8], out: &mut [u8]) -> Result<Outcome, Differs> {
        let before = (greys.to_vec(), out.len());
        let mut other = (greys.to_vec(), out.to_vec());
        let ours = library::lower_text(text, greys, out);
        let theirs = expected::lower_text(text, &mut other.0, &mut other.1);
        let left = (&ours, &*greys, &*out);
        self.agreed("lower_text", &(text, &before), left, (&theirs, &other.0[..], &other.1[..]))?;
        if self.coverage.wants_kinds() {
            self.coverage.note_kinds(grey_kinds::of_lower_text(text, greys, out, &ours));
        }
        self.counted("lower_text", side, ours)
    }

    /// Sketch Quote, with so many places lent of the lows, the highs and the caps. The side is as with Map Text.
    pub fn sketch_quote(
        &mut self,
        side: u32,
        text: &[u8],
        level: u32,
        quoted: &mut Quoted,
        lent: [usize; 3],
    ) -> Result<Outcome, Differs> {
        let before = quoted.clone();
        let mut other = quoted.clone();
        let [lows, highs, caps] = lent;
        let ours = library::sketch_quote(
            text,
            level,
            &mut quoted.lows[..lows],
            &mut quoted.highs[..highs],
            &mut quoted.caps[..caps],
        );
        let theirs = expected::sketch_quote(
            text,
            level,
            &mut other.lows[..lows],
            &mut other.highs[..highs],
            &mut other.caps[..caps],
        );
        let inputs = (text, level, &before, lent);
        self.agreed("sketch_quote", &inputs, (&ours, &*quoted), (&theirs, &other))?;
        if self.coverage.wants_kinds() {
            self.coverage.note_kinds(sketch_kinds::of_sketch_quote(text, level, quoted, lent, &ours));
        }
        let side = if ours.code == 0 { ours.values[0] as u32 } else { side };
        self.counted("sketch_quote", side, ours)
    }

    pub fn drill_list(
        &mut self,
        progress: Progress,
        sheet: &Sheet,
        lent: Lent,
        out: &mut [u8],
    ) -> Result<Outcome, Differs> {
        let before = out.to_vec();
        let mut other = out.to_vec();
        let pyramid = &sheet.pyramid[..lent.pyramid];
        let serials = &sheet.serials[..lent.serials];
        let order = &sheet.order[..lent.order];
        let ours = library::drill_list(progress, pyramid, serials, order, out);
        let theirs = expected::drill_list(progress, pyramid, serials, order, &mut other);
        let inputs = (progress, sheet, lent, before.len());
        self.agreed("drill_list", &inputs, (&ours, &*out), (&theirs, &other[..]))?;
        if self.coverage.wants_kinds() {
            self.coverage.note_kinds(knit_kinds::of_list(progress, sheet, lent, before.len(), ours.code));
        }
        self.counted_on(progress.knit, "drill_list", progress.side, ours)
    }

    pub fn quote_page(
        &mut self,
        side: u32,
        greys: &[u8],
        serials: &[u32],
        level: u32,
        out: &mut [u8],
    ) -> Result<Outcome, Differs> {
        let before = out.to_vec();
        let mut other = out.to_vec();
        let ours = library::quote_page(side, greys, serials, level, out);
        let theirs = expected::quote_page(side, greys, serials, level, &mut other);
        let inputs = (side, greys, serials, level, before.len());
        self.agreed("quote_page", &inputs, (&ours, &*out), (&theirs, &other[..]))?;
        self.counted("quote_page", side, ours)
    }

    pub fn sample(&mut self, seed: u32, side: u32, greys: &mut [u8], lent: usize) -> Result<Outcome, Differs> {
        let before = greys.to_vec();
        let mut other = greys.to_vec();
        let ours = library::sample(seed, side, &mut greys[..lent]);
        let theirs = expected::sample(seed, side, &mut other[..lent]);
        let inputs = (seed, side, &before, lent);
        self.agreed("sample", &inputs, (&ours, &*greys), (&theirs, &other[..]))?;
        self.counted("sample", side, ours)
    }

    pub fn compare(&mut self, side: u32, left: &[u32], right: &[u32]) -> Result<Outcome, Differs> {
        let ours = library::compare(side, left, right);
        let theirs = expected::compare(side, left, right);
        self.agreed("compare", &(side, left, right), &ours, &theirs)?;
        if self.coverage.wants_kinds() {
            self.coverage.note_kinds(plate_kinds::of_compare(side, left, right, &ours));
        }
        self.counted("compare", side, ours)
    }

    pub fn shelf(
        &mut self,
        side: u32,
        n: u32,
        plates: &[u32],
        list: &mut [u32],
        lent: usize,
    ) -> Result<Outcome, Differs> {
        let before = list.to_vec();
        let mut other = list.to_vec();
        let ours = library::shelf(side, n, plates, &mut list[..lent]);
        let theirs = expected::shelf(side, n, plates, &mut other[..lent]);
        let inputs = (side, n, plates, &before, lent);
        self.agreed("shelf", &inputs, (&ours, &*list), (&theirs, &other[..]))?;
        if self.coverage.wants_kinds() {
            self.coverage.note_kinds(plate_kinds::of_shelf(side, n, plates, &list[..lent], ours.code));
        }
        self.counted("shelf", side, ours)
    }

    /// Keep, which changes the value.
    pub fn keep(&mut self, progress: Progress, checkpoints: &mut Checkpoints, name: u32) -> Result<Outcome, Differs> {
        let before = *checkpoints;
        let ours = library::keep(progress, before, name);
        let theirs = expected::keep(progress, before, name);
        self.agreed("keep", &(progress, before, name), &ours, &theirs)?;
        checkpoints.kept.copy_from_slice(&ours.values);
        if self.coverage.wants_kinds() {
            self.coverage.note_kinds(stage_kinds::of_keep(progress, before, name, ours.code));
            self.coverage.note_kinds(knit_kinds::of_keep(progress, ours.code));
        }
        self.counted("keep", progress.side, ours)
    }

    pub fn restore(
        &mut self,
        progress: Progress,
        checkpoints: Checkpoints,
        name: u32,
        greys: &[u8],
        sheet: &mut Sheet,
        lent: Lent,
    ) -> Result<Outcome, Differs> {
        let before = sheet.clone();
        let mut other = sheet.clone();
        let ours = library::restore(
            progress,
            checkpoints,
            name,
            greys,
            &mut sheet.pyramid[..lent.pyramid],
            &mut sheet.serials[..lent.serials],
            &mut sheet.order[..lent.order],
        );
        let theirs = expected::restore(
            progress,
            checkpoints,
            name,
            greys,
            &mut other.pyramid[..lent.pyramid],
            &mut other.serials[..lent.serials],
            &mut other.order[..lent.order],
        );
        let inputs = (progress, checkpoints, name, greys, &before, lent);
        self.agreed("restore", &inputs, (&ours, &*sheet), (&theirs, &other))?;
        if self.coverage.wants_kinds() {
            let top = before.pyramid.first().copied();
            self.coverage.note_kinds(stage_kinds::of_restore(progress, checkpoints, name, greys, top, ours.code));
            self.coverage.note_kinds(knit_kinds::of_restore(progress, name, greys, &before, lent, ours.code));
            self.coverage.note_kinds(grey_kinds::of_restore(progress, checkpoints, name, greys, ours.code));
        }
        self.counted_on(progress.knit, "restore", progress.side, ours)
    }

    /// Relay, on an older sheet, into the first places of a second pyramid.
    pub fn relay(
        &mut self,
        progress: Progress,
        old: &Sheet,
        lent: Lent,
        second: &mut [i64],
        room: usize,
    ) -> Result<Outcome, Differs> {
        let before = second.to_vec();
        let mut other = second.to_vec();
        let pyramid = &old.pyramid[..lent.pyramid];
        let serials = &old.serials[..lent.serials];
        let order = &old.order[..lent.order];
        let ours = library::relay(progress, pyramid, serials, order, &mut second[..room]);
        let theirs = expected::relay(progress, pyramid, serials, order, &mut other[..room]);
        let inputs = (progress, old, lent, &before, room);
        self.agreed("relay", &inputs, (&ours, &*second), (&theirs, &other[..]))?;
        self.counted_on(progress.knit, "relay", progress.side, ours)
    }

    pub fn renew(&mut self, side: u32, cell: [u32; 2], pyramid: &mut [i64], lent: usize) -> Result<Outcome, Differs> {
        let before = pyramid.to_vec();
        let mut other = pyramid.to_vec();
        let ours = library::renew(side, cell, &mut pyramid[..lent]);
        let theirs = expected::renew(side, cell, &mut other[..lent]);
        let inputs = (side, cell, &before, lent);
        self.agreed("renew", &inputs, (&ours, &*pyramid), (&theirs, &other[..]))?;
        self.counted("renew", side, ours)
    }

    /// Lower of the first greys of a buffer, as many as are lent; they are those of a side, under which it is noted.
    pub fn lower(&mut self, side: u32, greys: &mut [u8], lent: usize) -> Result<Outcome, Differs> {
        let before = greys.to_vec();
        let mut other = greys.to_vec();
        let ours = library::lower(&mut greys[..lent]);
        let theirs = expected::lower(&mut other[..lent]);
        self.agreed("lower", &(&before, lent), (&ours, &*greys), (&theirs, &other[..]))?;
        self.counted("lower", side, ours)
    }

    fn agreed<T: Debug + PartialEq>(&self, call: &str, inputs: &dyn Debug, ours: T, theirs: T) -> Result<(), Differs> {
        if ours == theirs {
            return Ok(());
        }
        let (ours, theirs, inputs) = (format!("{ours:?}"), format!("{theirs:?}"), format!("{inputs:?}"));
        let place = ours.bytes().zip(theirs.bytes()).take_while(|(a, b)| a == b).count();
        let [inputs, ours, theirs] =
            [(&inputs, 0), (&ours, place), (&theirs, place)].map(|(text, at)| around(text, at));
        Err(format!("{call} on {inputs}\nlibrary   {ours}\nreference {theirs}"))
    }

    fn counted(&mut self, call: &'static str, side: u32, outcome: Outcome) -> Result<Outcome, Differs> {
        *self.calls.entry((call, outcome.code)).or_insert(0) += 1;
        self.coverage.note(call, side, outcome.code);
        Ok(outcome)
    }

    /// The same for a call that looks at the knit.
    fn counted_on(&mut self, knit: u32, call: &'static str, side: u32, outcome: Outcome) -> Result<Outcome, Differs> {
        if knit == RIBBED {
            self.coverage.note_ribbed(call, side, outcome.code);
        }
        self.counted(call, side, outcome)
    }
}

/// A text, or if it is long the part of it around a place.
fn around(text: &str, place: usize) -> String {
    const MOST: usize = 2000;
    if text.len() <= MOST {
        return text.to_string();
    }
    let start = place.saturating_sub(MOST / 2);
    let part: String = text.chars().skip(start).take(MOST).collect();
    format!("[{} characters, from {start}] {part}", text.len())
}
