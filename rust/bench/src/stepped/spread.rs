//! The spread of what a hole lacks over the neighbours of its cell.

use super::places::Around;
use crate::rules::{IN_TURN, WEIGHTS};

/// Takes from the neighbours what their cell lacks of a hole, each its share, by sums rounded down. All but few cells
/// have all neighbours on the map; then the sum of the weights is 12 on plain cloth and 4 on ribbed, and the shares
/// stand in a straight line, which is a little quicker than a loop that unrolls. What a cell lacks is from 0 to a whole
/// hole, so that numbers of 32 bits do, without a sign.
#[inline]
pub fn spread(knit: usize, around: &Around, lacking: i64, cells: &mut [i64]) {
    if !around.is_inside() {
        at_edge(&WEIGHTS[knit], around, lacking, cells);
    } else if knit == 0 {
        on_plain(around, lacking as u32, cells);
    } else {
        on_ribbed(around, lacking as u32, cells);
    }
}

/// On plain cloth the four at the corners weigh 1 and the four others 2.
fn on_plain(around: &Around, lacking: u32, cells: &mut [i64]) {
    let [one, two, three] = [lacking / 12, lacking * 2 / 12, lacking * 3 / 12];
    let [four, six, eight, ten] = [lacking * 4 / 12, lacking * 6 / 12, lacking * 8 / 12, lacking * 10 / 12];
    cells[around.place(0)] -= i64::from(one);
    cells[around.place(2)] -= i64::from(two - one);
    cells[around.place(6)] -= i64::from(three - two);
    cells[around.place(8)] -= i64::from(four - three);
    cells[around.place(1)] -= i64::from(six - four);
    cells[around.place(3)] -= i64::from(eight - six);
    cells[around.place(5)] -= i64::from(ten - eight);
    cells[around.place(7)] -= i64::from(lacking - ten);
}

/// On ribbed cloth only the four others weigh, 1 each.
fn on_ribbed(around: &Around, lacking: u32, cells: &mut [i64]) {
    let [one, two, three] = [lacking / 4, lacking * 2 / 4, lacking * 3 / 4];
    cells[around.place(1)] -= i64::from(one);
    cells[around.place(3)] -= i64::from(two - one);
    cells[around.place(5)] -= i64::from(three - two);
    cells[around.place(7)] -= i64::from(lacking - three);
}

/// The shares where some neighbours are off the map, so that the sum of the weights is less. Those that weigh nothing
/// bear nothing.
fn at_edge(weights: &[i64; 9], around: &Around, lacking: i64, cells: &mut [i64]) {
    let mut total = 0;
    for near in IN_TURN {
        if around.is_on_map(near) {
            total += weights[near];
        }
    }
    let (mut weighed, mut given) = (0, 0);
    for near in IN_TURN {
        if around.is_on_map(near) && weights[near] != 0 {
            weighed += weights[near];
            let until = lacking * weighed / total;
            cells[around.place(near)] -= until - given;
            given = until;
        }
    }
}
