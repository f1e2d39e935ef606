//! One Load and one Advance to the end, or only what goes before them, and nothing else: for `bench/count`, which has
//! the instructions counted.

use crate::buffers::Buffers;
use crate::engines::{LIBRARY, PLAIN, STEPPED};
use crate::{sampled, PLAIN_CLOTH, POWER};

/// Prints the holes made by one of the three, or 0 for nothing. False for another word.
pub fn once(by: &str) -> bool {
    let engine = match by {
        "nothing" => None,
        "library" => Some(LIBRARY),
        "plain" => Some(PLAIN),
        "stepped" => Some(STEPPED),
        _ => return false,
    };
    let greys = sampled(POWER);
    let mut buffers = Buffers::cleared(POWER);
    let holes = engine.map_or(0, |engine| {
        (engine.load)(POWER, PLAIN_CLOTH, &greys, &mut buffers);
        (engine.advance)(POWER, PLAIN_CLOTH, 0, u32::MAX, &mut buffers)
    });
    println!("{holes}");
    true
}
