//! The renewal by itself: sums worked by hand, each cell of small maps, and where nothing is done.

use reference::*;

const MOST: i64 = 1 << 40;

/// The pyramid, row after row, after a renewal that has to be done; by quarters it is the same one renamed.
fn renewed(side: u32, (row, column): (u32, u32), before: &[i64]) -> Vec<i64> {
    let mut pyramid = before.to_vec();
    assert!(by_rows::renew(side, row, column, &mut pyramid));
    let mut quarters = to_quarters(side, before);
    assert!(renew(side, row, column, &mut quarters));
    assert_eq!(quarters, to_quarters(side, &pyramid));
    pyramid
}

/// The cells are 1 to 16, so the sums are 14, 22, 46 and 54; the pyramid has -1 to -5 in place of these and the top
/// (S 12.3).
#[test]
fn wrong_sums_of_side_4() {
    let before: Vec<i64> = (-5..0).rev().chain(1..17).collect();
    let sums = |row, column| renewed(4, (row, column), &before)[..5].to_vec();
    // a corner: one sum over it and its neighbours, and the top, which is the sum of what is then below it
    assert_eq!(sums(0, 0), [14 - 3 - 4 - 5, 14, -3, -4, -5]);
    assert_eq!(sums(0, 3), [-2 + 22 - 4 - 5, -2, 22, -4, -5]);
    assert_eq!(sums(3, 0), [-2 - 3 + 46 - 5, -2, -3, 46, -5]);
    assert_eq!(sums(3, 3), [-2 - 3 - 4 + 54, -2, -3, -4, 54]);
    // the rim: two sums
    assert_eq!(sums(0, 1), [14 + 22 - 4 - 5, 14, 22, -4, -5]);
    assert_eq!(sums(2, 0), [14 - 3 + 46 - 5, 14, -3, 46, -5]);
    assert_eq!(sums(3, 2), [-2 - 3 + 46 + 54, -2, -3, 46, 54]);
    // inside: all four
    assert_eq!(sums(1, 2), [14 + 22 + 46 + 54, 14, 22, 46, 54]);
}

/// The rows and columns of a square of so many rows.
fn places(rows: u32) -> impl Iterator<Item = (u32, u32)> {
    (0..rows).flat_map(move |row| (0..rows).map(move |column| (row, column)))
}

/// Whether an entry that is `wide` cells wide lies over a cell or one of its neighbours.
fn is_over(wide: u32, entry: (u32, u32), cell: (u32, u32)) -> bool {
    let near = |entry: u32, place: u32| entry * wide <= place + 1 && place <= (entry + 1) * wide;
    near(entry.0, cell.0) && near(entry.1, cell.1)
}

/// The sum of the four entries below one.
fn four(pyramid: &[i64], level: u32, row: usize, column: usize) -> i64 {
    let below = |down, right| pyramid[entry(level + 1, 2 * row + down, 2 * column + right)];
    below(0, 0) + below(0, 1) + below(1, 0) + below(1, 1)
}

/// Each sum over the cell or one of its neighbours is right, and all other entries are as they were, right or wrong.
fn check_renewal(side: u32, cell: (u32, u32), before: &[i64]) {
    let after = renewed(side, cell, before);
    let power = power(side).unwrap();
    for level in 0..power {
        let rows = 2u32.pow(level);
        for (row, column) in places(rows) {
            let over = is_over(side / rows, (row, column), cell);
            let (row, column) = (row as usize, column as usize);
            let place = entry(level, row, column);
            let expected = if over { four(&after, level, row, column) } else { before[place] };
            assert_eq!(after[place], expected);
        }
    }
    assert_eq!(after[level_start(power)..], before[level_start(power)..]);
}

/// No sum is right, since every entry is less than each of its four. The last two entries lie past the needed length
/// and may be anything (S 12.3, S 3.8).
#[test]
fn each_cell_of_wrong_pyramids() {
    for side in [2, 4, 8, 16, 32] {
        let needed = pyramid_length(power(side).unwrap()) as i64;
        let mut before: Vec<i64> = (0..needed).map(|place| 31 * place * place + 5).collect();
        before.extend([MOST + 1, i64::MIN]);
        for cell in places(side) {
            check_renewal(side, cell, &before);
        }
    }
}

/// The sums are then beyond the ends, and nothing more is promised (S 12.3).
#[test]
fn all_entries_at_an_end_of_the_range() {
    for side in SIDES {
        for end in [MOST, -MOST] {
            let pyramid = vec![end; pyramid_length(power(side).unwrap())];
            for cell in [(0, 0), (side - 1, 0), (side / 2, side - 1), (side / 2, side / 2)] {
                check_renewal(side, cell, &pyramid);
                assert!(is_left_alone(side, 0, 0, &renewed(side, cell, &pyramid)));
            }
        }
    }
}

/// Whether a renewal answers false and leaves the pyramid as it was.
fn is_left_alone(side: u32, row: u32, column: u32, before: &[i64]) -> bool {
    let mut pyramid = before.to_vec();
    !renew(side, row, column, &mut pyramid) && pyramid == before
}

/// For S 12.3.
#[test]
fn nothing_is_promised() {
    for side in SIDES {
        let needed = pyramid_length(power(side).unwrap());
        let pyramid = vec![7; needed];
        assert!(is_left_alone(side, 0, 0, &pyramid[1..]));
        assert!(is_left_alone(side, 0, 0, &[]));
        for off_map in [side, side + 1, 1 << 31, u32::MAX] {
            assert!(is_left_alone(side, off_map, 0, &pyramid));
            assert!(is_left_alone(side, 0, off_map, &pyramid));
        }
        // anywhere, also far from the cell
        for place in [0, 1, needed / 2, needed - 1] {
            for beyond in [MOST + 1, -MOST - 1, i64::MAX, i64::MIN] {
                let mut pyramid = pyramid.clone();
                pyramid[place] = beyond;
                assert!(is_left_alone(side, 0, 0, &pyramid));
            }
        }
    }
    for no_side in [0, 1, 3, 5, 255, 257, 512, 1 << 31, u32::MAX] {
        assert!(is_left_alone(no_side, 0, 0, &[7; 341]));
    }
}
