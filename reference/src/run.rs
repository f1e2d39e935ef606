//! Buffers of the needed lengths, and a map run to its end on them.

use crate::answers::{AdvanceAnswer, CheckpointAnswer, Checkpoints, LoadAnswer, Progress, Refusal, TwoHeadsAnswer};
use crate::by_quarters::{advance, drill_list, load, restore, sound, to_quarters, two_heads};
use crate::calls::start;
use crate::drill_list::list_room;
use crate::shape::{cell_count, power, pyramid_length};

/// The three buffers, for callers that have none of their own (S 2.5, S 2.7).
#[derive(Debug, Clone, PartialEq, Eq)]
pub struct Buffers {
    pub pyramid: Vec<i64>,
    pub serials: Vec<u32>,
    pub order: Vec<u32>,
}

impl Buffers {
    /// Buffers of just the needed lengths, for one of the eight sides.
    pub fn new(side: u32) -> Result<Buffers, Refusal> {
        Ok(Buffers {
            pyramid: vec![0; pyramid_length(power(side)?)],
            serials: vec![0; cell_count(side)],
            order: vec![0; cell_count(side)],
        })
    }

    /// The sheet without a dot that Load made of a side's greys in earlier versions, when they went up to 255 (S 7.5).
    pub fn older(side: u32, greys: &[u8]) -> Result<Buffers, Refusal> {
        let Buffers { mut pyramid, mut serials, mut order } = Buffers::new(side)?;
        start(power(side)?, greys, &mut pyramid, &mut serials, &mut order);
        Ok(Buffers { pyramid: to_quarters(side, &pyramid), serials, order })
    }

    /// Load on these buffers.
    pub fn load(&mut self, side: u32, knit: u32, greys: &[u8]) -> LoadAnswer {
        load(side, knit, greys, &mut self.pyramid, &mut self.serials, &mut self.order)
    }

    /// Advance on these buffers.
    pub fn advance(&mut self, progress: Progress, budget: u32) -> AdvanceAnswer {
        advance(progress, budget, &mut self.pyramid, &mut self.serials, &mut self.order)
    }

    /// The call for two heads on these buffers.
    pub fn two_heads(&mut self, side: u32, knit: u32, greys: &[u8]) -> TwoHeadsAnswer {
        two_heads(side, knit, greys, &mut self.pyramid, &mut self.serials, &mut self.order)
    }

    /// Restore on these buffers.
    pub fn restore(
        &mut self,
        progress: Progress,
        checkpoints: Checkpoints,
        name: u32,
        greys: &[u8],
    ) -> CheckpointAnswer {
        restore(progress, checkpoints, name, greys, &mut self.pyramid, &mut self.serials, &mut self.order)
    }

    /// Drill List on these buffers.
    pub fn drill_list(&self, progress: Progress, out: &mut [u8]) -> Result<usize, Refusal> {
        drill_list(progress, &self.pyramid, &self.serials, &self.order, out)
    }

    /// Whether these buffers with this record are a sound sheet.
    pub fn sound(&self, progress: Progress) -> bool {
        sound(progress, &self.pyramid, &self.serials, &self.order)
    }
}

/// What a run to its end leaves: the record, the buffers and the drill list.
pub struct Run {
    pub progress: Progress,
    pub buffers: Buffers,
    pub list: Vec<u8>,
}

/// Load, one Advance with the largest budget, Drill List.
pub(crate) fn run(side: u32, knit: u32, greys: &[u8]) -> Result<Run, Refusal> {
    let mut buffers = Buffers::new(side)?;
    let loaded = buffers.load(side, knit, greys);
    loaded.status?;
    let advanced = buffers.advance(loaded.progress, u32::MAX);
    advanced.status?;
    listed(advanced.progress, buffers)
}

/// The same with two heads.
pub(crate) fn run_two_heads(side: u32, knit: u32, greys: &[u8]) -> Result<Run, Refusal> {
    let mut buffers = Buffers::new(side)?;
    let answer = buffers.two_heads(side, knit, greys);
    answer.status?;
    listed(answer.progress, buffers)
}

/// A run with its drill list.
fn listed(progress: Progress, buffers: Buffers) -> Result<Run, Refusal> {
    let mut list = vec![0; list_room(progress.side)];
    let length = buffers.drill_list(progress, &mut list)?;
    list.truncate(length);
    Ok(Run { progress, buffers, list })
}
