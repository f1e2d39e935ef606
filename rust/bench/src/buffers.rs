//! The three buffers of a sheet.

use std::hint::black_box;

use crate::rules::level_start;

/// The buffers that a caller lends.
#[derive(PartialEq)]
pub struct Buffers {
    pub pyramid: Vec<i64>,
    pub serials: Vec<u32>,
    pub order: Vec<u32>,
}

impl Buffers {
    /// Buffers of the needed lengths for a map with this power, each place written once and then cleared. The black box
    /// keeps the compiler from taking both for nothing and asking for zeroed memory, which is first touched in use.
    pub fn cleared(power: usize) -> Buffers {
        let cells = 1 << (2 * power);
        let mut buffers =
            Buffers { pyramid: vec![1; level_start(power + 1)], serials: vec![1; cells], order: vec![1; cells] };
        black_box(&mut buffers);
        buffers.pyramid.fill(0);
        buffers.serials.fill(0);
        buffers.order.fill(0);
        buffers
    }
}
