//! The three that are measured, with one set of arguments: the library, by its safe Rust crate, and both Rusts.

use rulmedei::Progress;

use crate::buffers::Buffers;
use crate::{plain, stepped};

/// Load and Advance of one of the three, and its name in the table. A map of power r has side 2^r; knit 0 is plain
/// cloth, and 1 ribbed. Advance begins with so many holes and has a budget of so many more, and returns the holes that
/// there are then.
#[derive(Clone, Copy)]
pub struct Engine {
    pub name: &'static str,
    pub load: fn(power: usize, knit: usize, greys: &[u8], buffers: &mut Buffers),
    pub advance: fn(power: usize, knit: usize, dots: u32, budget: u32, buffers: &mut Buffers) -> u32,
}

pub const LIBRARY: Engine = Engine { name: "library", load: library_load, advance: library_advance };
pub const PLAIN: Engine = Engine { name: "Rust, `plain`", load: plain_load, advance: plain_advance };
pub const STEPPED: Engine = Engine { name: "Rust, `stepped`", load: stepped_load, advance: stepped_advance };

fn library_load(power: usize, knit: usize, greys: &[u8], b: &mut Buffers) {
    let loaded = rulmedei::load(1 << power, knit as u32, greys, &mut b.pyramid, &mut b.serials, &mut b.order);
    assert_eq!(loaded, Ok(Progress { side: 1 << power, dots: 0, knit: knit as u32 }));
}

fn library_advance(power: usize, knit: usize, dots: u32, budget: u32, b: &mut Buffers) -> u32 {
    let record = Progress { side: 1 << power, dots, knit: knit as u32 };
    let end = rulmedei::advance(record, budget, &mut b.pyramid, &mut b.serials, &mut b.order).expect("advance");
    end.progress.dots
}

fn plain_load(power: usize, _: usize, greys: &[u8], b: &mut Buffers) {
    plain::load(power, greys, &mut b.pyramid, &mut b.serials, &mut b.order).expect("load");
}

fn plain_advance(power: usize, knit: usize, dots: u32, budget: u32, b: &mut Buffers) -> u32 {
    plain::advance(power, knit, dots, budget, &mut b.pyramid, &mut b.serials, &mut b.order).expect("advance")
}

fn stepped_load(power: usize, _: usize, greys: &[u8], b: &mut Buffers) {
    stepped::load(power, greys, b).expect("load");
}

fn stepped_advance(power: usize, knit: usize, dots: u32, budget: u32, b: &mut Buffers) -> u32 {
    stepped::advance(power, knit, dots, budget, b).expect("advance")
}
