//! The pyramid by quarters: places worked by hand, each used once, and Relay, which writes an older sheet's pyramid by
//! quarters.

use reference::*;

/// Side 4 by hand: a level of four rows of four, in the order of their places (S 2.5).
#[test]
fn places_of_side_4() {
    let rows: Vec<i64> = (0..21).collect();
    let level = [[0, 1, 4, 5], [2, 3, 6, 7], [8, 9, 12, 13], [10, 11, 14, 15]];
    let quarters = to_quarters(4, &rows);
    assert_eq!(quarters[..5], rows[..5]);
    for (cell, place) in level.concat().into_iter().enumerate() {
        assert_eq!(quarters[5 + place], rows[5 + cell]);
        assert_eq!(quarter_entry(2, cell / 4, cell % 4), 5 + place);
    }
}

/// The lowest bit of the column is the lowest bit of the place (S 2.5).
#[test]
fn single_bits() {
    let first = |level| level_start(level);
    for bit in 0..8 {
        assert_eq!(quarter_entry(8, 0, 1 << bit), first(8) + 4usize.pow(bit));
        assert_eq!(quarter_entry(8, 1 << bit, 0), first(8) + 2 * 4usize.pow(bit));
    }
    assert_eq!(quarter_entry(8, 255, 0) - first(8), 43_690);
    assert_eq!(quarter_entry(8, 0, 255) - first(8), 21_845);
    assert_eq!(quarter_entry(8, 37, 200) - first(8), 0b0101_1000_0110_0010);
}

/// Every place is used once; the four below the entry at place i are at the places 4 i + 1 to 4 i + 4 (S 2.5, S 15.14).
#[test]
fn every_place_once_and_four_below() {
    for (level, rows) in (0..8).map(|level| (level, 2usize.pow(level))) {
        let mut used = vec![0; rows * rows];
        for (row, column) in (0..rows * rows).map(|cell| (cell / rows, cell % rows)) {
            let place = quarter_entry(level, row, column);
            used[place - level_start(level)] += 1;
            let below = [(0, 0), (0, 1), (1, 0), (1, 1)]
                .map(|(down, right)| quarter_entry(level + 1, 2 * row + down, 2 * column + right));
            assert_eq!(below, [1, 2, 3, 4].map(|next| 4 * place + next));
        }
        assert!(used.iter().all(|times| *times == 1));
    }
}

/// There and back; one place too few, or no side, and nothing is renamed; what lies behind stays (S 2.6).
#[test]
fn there_and_back() {
    for side in SIDES {
        let needed = pyramid_length(power(side).unwrap());
        let rows: Vec<i64> = (0..needed as i64 + 3).collect();
        let quarters = to_quarters(side, &rows);
        assert_eq!(quarters[needed..], rows[needed..]);
        assert_eq!(to_rows(side, &quarters), rows);
        assert_eq!(to_quarters(side, &rows[..needed - 1]), rows[..needed - 1]);
        assert_eq!(side > 2, quarters != rows);
    }
    assert_eq!(to_quarters(3, &[1, 2, 3]), [1, 2, 3]);
}

/// An older sheet of side 8, half done, row after row.
fn older(knit: u32) -> (Buffers, Progress) {
    let greys = maps::named("random", 8);
    let mut old = Buffers::new(8).unwrap();
    let loaded = by_rows::load(8, knit, &greys, &mut old.pyramid, &mut old.serials, &mut old.order);
    let after = by_rows::advance(loaded.progress, 9, &mut old.pyramid, &mut old.serials, &mut old.order);
    assert_eq!(after.made, 9);
    (old, after.progress)
}

/// Relaid, an older sheet is sound, and goes on as it would have (S 12.2, S 15.14).
#[test]
fn a_relaid_sheet_goes_on() {
    for knit in [PLAIN, RIBBED] {
        let (mut old, progress) = older(knit);
        let mut second = vec![7; 88];
        assert_eq!(relay(progress, &old.pyramid, &old.serials, &old.order, &mut second), Ok(()));
        assert_eq!(second[85..], [7; 3]);
        assert_eq!(second[..85], to_quarters(8, &old.pyramid));
        let mut new = Buffers { pyramid: second[..85].to_vec(), ..old.clone() };
        assert!(new.sound(progress));
        let by_rows = by_rows::advance(progress, 99, &mut old.pyramid, &mut old.serials, &mut old.order);
        assert_eq!(new.advance(progress, 99), by_rows);
        assert_eq!((to_rows(8, &new.pyramid), new.serials, new.order), (old.pyramid, old.serials, old.order));
    }
}

/// Its refusals, the lowest first; none of them writes (S 5.2, S 12.2).
#[test]
fn refusals_of_relay() {
    let (old, progress) = older(PLAIN);
    let number = |progress, lent: [usize; 4], old: &Buffers| {
        let mut second = vec![7; lent[3]];
        let answer =
            relay(progress, &old.pyramid[..lent[0]], &old.serials[..lent[1]], &old.order[..lent[2]], &mut second);
        assert_eq!(answer.is_err(), second.iter().all(|entry| *entry == 7));
        answer.map_or_else(|refusal| refusal.number(), |()| 0)
    };
    let no_side = Progress { side: 9, knit: 2, ..progress };
    let no_knit = Progress { knit: 2, ..progress };
    assert_eq!(number(no_side, [0; 4], &old), 1);
    assert_eq!(number(no_knit, [0; 4], &old), 11);
    assert_eq!(number(progress, [84, 0, 0, 85], &old), 3);
    assert_eq!(number(progress, [85, 0, 0, 84], &old), 3);
    assert_eq!(number(progress, [85, 63, 64, 85], &old), 4);
    assert_eq!(number(progress, [85, 64, 63, 85], &old), 4);
    assert_eq!(number(Progress { dots: 8, ..progress }, [85, 64, 64, 85], &old), 5);
    let relaid = Buffers { pyramid: to_quarters(8, &old.pyramid), ..old.clone() };
    assert_eq!(number(progress, [85, 64, 64, 85], &relaid), 5);
    assert_eq!(number(progress, [85, 64, 64, 85], &old), 0);
}
