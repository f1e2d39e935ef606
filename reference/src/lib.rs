//! The reference: docs/SPECIFICATION.md written down a second time, as simply as can be, so that the outputs of the
//! proved engine can be matched against it. It shares no line with that engine.
//! |
//! Its names: a dot is a hole, and to place a dot is to burn; a residual is a debt; to diffuse is to spread; a block is
//! an aligned square; serials and order are the serial sheet and the order list; Progress is the record; Checkpoints
//! are the counts kept under names, and Restore is the return to one of them. S 3.2 and the like are points of the
//! specification.

mod answers;
mod by_quarters;
mod calls;
mod case_text;
mod checkpoints;
mod convert;
mod diffusion;
mod drill_list;
mod knit;
mod lowering;
mod map_text;
mod measures;
mod plate;
mod pyramid;
mod quality;
mod quote;
mod quote_page;
mod renewal;
mod run;
mod run_cases;
mod sample;
mod samples;
mod shape;
mod shelf;
mod shelf_cases;
mod sketch;
mod sketch_quote;
mod sound;
mod stage_cases;
mod survey_cases;
mod text_cases;
mod two_heads;

pub mod maps;
pub mod stored;

pub use answers::{AdvanceAnswer, CheckpointAnswer, Checkpoints, Compared, Ended, LoadAnswer, Progress, Refusal};
pub use answers::{SketchQuote, TwoHeadsAnswer};
pub use by_quarters::{advance, drill_list, load, relay, renew, restore, sound, two_heads};
pub use by_quarters::{quarter_entry, to_quarters, to_rows};
pub use checkpoints::keep;
pub use convert::convert;
pub use diffusion::{descend, dots_due, place, shares};
pub use knit::{weights, weights_of, Weights, PLAIN, RIBBED};
pub use lowering::{lower, lower_text, lowered, HIGHEST};
pub use map_text::{map_text, write_map_text};
pub use measures::{levels, tally};
pub use plate::{plate, two_heads_text, GREYS_ROOM, LONGEST_INPUT};
pub use pyramid::{renew_all, renew_over};
pub use quote::quote;
pub use quote_page::quote_page;
pub use run::{Buffers, Run};
pub use sample::{sample, sample_text};
pub use shape::{cell_count, entry, level_start, neighbours, neighbours_in_turn, power, pyramid_length};
pub use shape::{Neighbour, DOT, HALF_DOT, SIDES};
pub use shelf::{compare, in_order, shelf};
pub use sketch::sketch;
pub use sketch_quote::{sketch_quote, write_sketch};

/// The calls on a pyramid that lies row after row, as those of earlier versions did (S 2.6).
pub mod by_rows {
    pub use crate::calls::{advance, load};
    pub use crate::checkpoints::restore;
    pub use crate::drill_list::drill_list;
    pub use crate::renewal::renew;
    pub use crate::sound::sound;
    pub use crate::two_heads::{two_heads, two_heads_in, Macroblock};
}
