//! The cases, by kind: every call answered, and every call refused, both on either knit; loads; runs of calls with lent
//! parts and damage between them; runs with names; sheets that no Load made; noise; the renewal by itself on wrong
//! pyramids; samples one after another, and lowered; plates compared, and shelves of plates; older sheets; texts, and
//! texts of two sides, read and lowered; sketches, and texts that are nearly such; maps for two heads. Before them all,
//! the cases that are the same in every run.

use reference::SIDES;

use crate::bounds::bounds_cases;
use crate::counts::counts_cases;
use crate::heads::{heads_case, heads_side};
use crate::older::older_case;
use crate::random::Random;
use crate::renewals::renewal_case;
use crate::runs::{load_case, made_up_case, noise_case, run_case};
use crate::samples::sample_case;
use crate::shelves::{compare_case, shelf_case};
use crate::side_by_side::{Differs, SideBySide};
use crate::sketches::{mixed_sketch_case, sketch_case};
use crate::stages::stage_case;
use crate::texts::{mixed_text_case, text_case};
use crate::tours::{refusals_case, ribbed_refusals_case, ribbed_tour_case, tour_case};
use crate::wide::wide_cases;

/// A case of a side.
type Case = fn(&mut Random, &mut SideBySide, u32) -> Result<(), Differs>;

/// The kinds of case, each made at every side by the sweep.
const KINDS: [Case; 19] = [
    tour_case,
    ribbed_tour_case,
    refusals_case,
    ribbed_refusals_case,
    load_case,
    run_case,
    stage_case,
    made_up_case,
    noise_case,
    renewal_case,
    sample_case,
    compare_case,
    shelf_case,
    older_case,
    text_case,
    mixed_text_case,
    sketch_case,
    mixed_sketch_case,
    heads_case,
];

/// How often the sweep goes over all kinds and sides.
const ROUNDS: u64 = 8;

/// The fixed cases: numbers that are too wide, counts that are, and sheets with a cell at its bounds.
pub fn fixed(calls: &mut SideBySide) -> Result<(), Differs> {
    wide_cases(calls)?;
    counts_cases(calls)?;
    bounds_cases(calls)
}

/// Case number `number`, counted from 0: at first the sweep, then cases drawn at random.
pub fn case(number: u64, random: &mut Random, calls: &mut SideBySide) -> Result<(), Differs> {
    let (kinds, sides) = (KINDS.len() as u64, SIDES.len() as u64);
    if number >= ROUNDS * kinds * sides {
        return random_case(random, calls);
    }
    let kind = KINDS[(number / sides % kinds) as usize];
    kind(random, calls, SIDES[(number % sides) as usize])
}

/// One case, of a kind and a side drawn at random. Where the calls are quick, a large side is drawn more often.
fn random_case(random: &mut Random, calls: &mut SideBySide) -> Result<(), Differs> {
    let (any, good) = (random.side(), random.good_side());
    let large = random.pick(&[32, 64, 128, 256]);
    let (quick, quick_good) = if random.once_in(200) { (large, large) } else { (any, good) };
    match random.below(38) {
        0..=3 => load_case(random, calls, any),
        4..=9 => run_case(random, calls, good),
        10 | 11 => made_up_case(random, calls, good),
        12 | 13 => noise_case(random, calls, any),
        14..=17 => renewal_case(random, calls, quick),
        18 | 19 => sample_case(random, calls, quick),
        20..=24 => text_case(random, calls, quick_good),
        25 => compare_case(random, calls, any),
        26 | 27 => shelf_case(random, calls, any),
        28 | 29 => stage_case(random, calls, good),
        30 | 31 => older_case(random, calls, any),
        32..=34 => sketch_case(random, calls, quick_good),
        35 => mixed_sketch_case(random, calls, quick_good),
        36 => {
            let side = heads_side(random);
            heads_case(random, calls, side)
        }
        _ => mixed_text_case(random, calls, quick_good),
    }
}
