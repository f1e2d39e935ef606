//! The walk to the cell of the next hole.

/// From the top always to a largest of the four entries below, down to a cell: its row, its column, and its place in
/// the pyramid. Of equals the first is taken, or the last. The four are compared in pairs: the upper two, the lower
/// two, then the better of either. Which of equals is taken is a constant, and so there is code for either: that is
/// quicker than to add 1 where the last is.
pub fn descend<const LAST: bool>(power: usize, pyramid: &[i64]) -> (usize, usize, usize) {
    let (mut row, mut column, mut at) = (0, 0, 0);
    for _ in 0..power {
        let first = 4 * at + 1;
        let below = &pyramid[first..first + 4];
        let upper = better::<LAST>((first, below[0]), (first + 1, below[1]));
        let lower = better::<LAST>((first + 2, below[2]), (first + 3, below[3]));
        (at, _) = better::<LAST>(upper, lower);
        (row, column) = (2 * row + (at - first) / 2, 2 * column + (at - first) % 2);
    }
    (row, column, at)
}

/// The better of two entries, each with its place.
fn better<const LAST: bool>(first: (usize, i64), second: (usize, i64)) -> (usize, i64) {
    let is_second = if LAST { first.1 <= second.1 } else { first.1 < second.1 };
    if is_second {
        second
    } else {
        first
    }
}
