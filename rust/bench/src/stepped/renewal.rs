//! The renewal of the sums over a hole's cell and its neighbours.

use super::places::{above, four, Around};
use crate::rules::level_start;

/// Makes the sums over the nine cells again, level by level up to the top. Three rows side by side lie under two rows,
/// or one, of every coarser level, and columns likewise; so these are the entries over the four at the corners. Where
/// some of the four are the same, adding up again is cheaper than asking; and to add up all four before one of them is
/// stored is quicker than one after the other.
#[inline]
pub fn renew(power: usize, around: &Around, pyramid: &mut [i64]) {
    let [mut nw, mut ne, mut sw, mut se] = around.corners(level_start(power)).map(above);
    while nw != se {
        let sums = [four(nw, pyramid), four(ne, pyramid), four(sw, pyramid), four(se, pyramid)];
        pyramid[nw] = sums[0];
        pyramid[ne] = sums[1];
        pyramid[sw] = sums[2];
        pyramid[se] = sums[3];
        [nw, ne, sw, se] = [nw, ne, sw, se].map(above);
    }
    carry_up(nw, pyramid);
}

/// Makes the sum of one entry again and those of all over it. A sum is stored only after the four of the next level
/// have been added up with what was there before; that is taken off and the new sum put in its place. So the levels are
/// added up side by side, and only one number goes from level to level.
fn carry_up(mut at: usize, pyramid: &mut [i64]) {
    let mut sum = four(at, pyramid);
    while at != 0 {
        let next = four(above(at), pyramid) - pyramid[at] + sum;
        pyramid[at] = sum;
        (at, sum) = (above(at), next);
    }
    pyramid[0] = sum;
}
