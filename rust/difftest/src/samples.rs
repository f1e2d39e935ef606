//! Samples, and greys lowered.

use crate::parts::{lent_greys, needed};
use crate::random::Random;
use crate::side_by_side::{Differs, SideBySide};

/// Sample into one buffer of noise after another, the first for the given side, each from the state that the call
/// before returned, which is 0 where that one was refused. After each the buffer, or a part of it, is lowered.
pub fn sample_case(random: &mut Random, calls: &mut SideBySide, side: u32) -> Result<(), Differs> {
    let mut state = seed(random);
    let mut side = side;
    for _ in 0..1 + random.below(3) {
        let count = random.length(needed(side).0);
        let mut greys = random.bytes(count);
        let lent = lent_greys(random, side, &greys).len();
        let answer = calls.sample(state, side, &mut greys, lent)?;
        state = answer.values[0] as u32;
        let lowered = if random.once_in(2) { count } else { random.below(count + 1) };
        calls.lower(side, &mut greys, lowered)?;
        side = random.side();
    }
    Ok(())
}

/// A seed at an end of the range or in its middle, or any.
fn seed(random: &mut Random) -> u32 {
    let any = random.next() as u32;
    random.pick(&[0, 1, u32::MAX, 1 << 31, any, any, any, any])
}
