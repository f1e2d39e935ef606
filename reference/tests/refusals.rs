//! When a call says no: every number for every call that gives it, at the exact boundary. Without a word on it, the
//! cloth is plain.

use reference::*;

/// Numbers that are no side.
const NO_SIDES: [u32; 12] = [0, 1, 3, 5, 6, 12, 255, 257, 512, 65_536, 1 << 31, u32::MAX];

/// Numbers that are no knit.
const NO_KNITS: [u32; 8] = [2, 3, 4, 255, 256, 1 << 16, 1 << 31, u32::MAX];

/// Odd numbers that no call writes, so that every write shows.
fn odd_buffers(pyramid: usize, serials: usize, order: usize) -> Buffers {
    Buffers {
        pyramid: (0..pyramid as i64).map(|place| -7_919 * place - 5).collect(),
        serials: (0..serials as u32).map(|place| 31 * place + 70_001).collect(),
        order: (0..order as u32).map(|place| 37 * place + 90_001).collect(),
    }
}

/// The needed lengths of a side: cells and pyramid.
fn needed(side: u32) -> (usize, usize) {
    (cell_count(side), pyramid_length(power(side).unwrap()))
}

/// A sheet of side 4 with three dots, and more due.
fn three_dots() -> (Buffers, Progress) {
    let mut buffers = Buffers::new(4).unwrap();
    let progress = buffers.load(4, PLAIN, &maps::sampled(7, 16)).progress;
    let answer = buffers.advance(progress, 3);
    assert_eq!((answer.made, answer.status), (3, Ok(Ended::More)));
    (buffers, answer.progress)
}

/// The number of Load for buffers of these lengths: greys, pyramid, serials, order. A refusal changes nothing.
fn load_number_on(knit: u32, side: u32, [greys, pyramid, serials, order]: [usize; 4]) -> u32 {
    let mut buffers = odd_buffers(pyramid, serials, order);
    let before = buffers.clone();
    let answer = buffers.load(side, knit, &vec![77; greys]);
    match answer.status {
        Ok(()) => {
            assert_eq!(answer.progress, Progress { side, dots: 0, knit });
            0
        }
        Err(refusal) => {
            assert_eq!(answer.progress, Progress { side: 0, dots: 0, knit: 0 });
            assert_eq!(buffers, before);
            refusal.number()
        }
    }
}

/// The number of Load, which has to be the same for either knit. For one that is none it is 11, wherever it isn't 1.
fn load_number(side: u32, greys: usize, pyramid: usize, serials: usize, order: usize) -> u32 {
    let lengths = [greys, pyramid, serials, order];
    let number = load_number_on(PLAIN, side, lengths);
    assert_eq!(load_number_on(RIBBED, side, lengths), number);
    for knit in NO_KNITS {
        assert_eq!(load_number_on(knit, side, lengths), if number == 1 { 1 } else { 11 });
    }
    number
}

/// For S 5.2, S 7.2.
#[test]
fn load_refuses() {
    for side in SIDES {
        let (n, p) = needed(side);
        assert_eq!(load_number(side, n, p, n, n), 0);
        assert_eq!(load_number(side, n - 1, p, n, n), 2);
        assert_eq!(load_number(side, n, p - 1, n, n), 3);
        assert_eq!(load_number(side, n, p, n - 1, n), 4);
        assert_eq!(load_number(side, n, p, n, n - 1), 4);
        assert_eq!(load_number(side, n - 1, p - 1, n - 1, n - 1), 2);
        assert_eq!(load_number(side, n, p - 1, n - 1, n), 3);
        assert_eq!(load_number(side, n, p - 1, n, 0), 3);
        assert_eq!(load_number(side, 0, 0, 0, 0), 2);
    }
    for side in NO_SIDES {
        assert_eq!(load_number(side, 0, 0, 0, 0), 1);
        assert_eq!(load_number(side, 300, 300, 300, 300), 1);
    }
}

/// The number of Load for greys that are 240 but for one, and buffers of these lengths. A refusal changes nothing.
fn high_number(knit: u32, side: u32, grey: (usize, u8), [greys, pyramid, serials, order]: [usize; 4]) -> u32 {
    let mut map = vec![240; greys];
    map[grey.0] = grey.1;
    let mut buffers = odd_buffers(pyramid, serials, order);
    let before = buffers.clone();
    let answer = buffers.load(side, knit, &map);
    assert!(answer.status.is_ok() || (buffers == before && answer.progress == Progress { side: 0, dots: 0, knit: 0 }));
    answer.status.map_or_else(Refusal::number, |()| 0)
}

/// A grey above 240 is the last of Load's checks; behind the map's own greys it is none of them (S 7.2).
#[test]
fn load_refuses_high_greys() {
    for side in SIDES {
        let (n, p) = needed(side);
        for knit in [PLAIN, RIBBED] {
            for place in [0, 1, n / 2, n - 1] {
                assert_eq!(high_number(knit, side, (place, 240), [n, p, n, n]), 0);
                for grey in 241..=255 {
                    assert_eq!(high_number(knit, side, (place, grey), [n, p, n, n]), 12);
                }
            }
            for place in [n, n + 1, n + 8] {
                assert_eq!(high_number(knit, side, (place, 255), [n + 9, p, n, n]), 0);
            }
        }
        for place in [0, n - 2] {
            let number = |knit, lengths| high_number(knit, side, (place, 241), lengths);
            assert_eq!(number(PLAIN, [n - 1, p, n, n]), 2);
            assert_eq!(number(PLAIN, [n, p - 1, n, n]), 3);
            assert_eq!(number(PLAIN, [n, p, n - 1, n]), 4);
            assert_eq!(number(PLAIN, [n, p, n, n - 1]), 4);
            assert_eq!(number(PLAIN, [n - 1, p - 1, n - 1, n - 1]), 2);
            for knit in NO_KNITS {
                assert_eq!(number(knit, [n, p, n, n]), 11);
            }
        }
    }
    for side in NO_SIDES {
        assert_eq!(high_number(2, side, (0, 255), [300; 4]), 1);
    }
}

/// The numbers of Advance and of Drill List for buffers of which only these parts are lent; both have to be the
/// same, and the same for either knit. For one that is none they are 11, wherever they aren't 1.
fn sheet_number(progress: Progress, buffers: &Buffers, lent: (usize, usize, usize)) -> u32 {
    let on = |knit| sheet_number_on(Progress { knit, ..progress }, buffers, lent);
    let number = on(PLAIN);
    assert_eq!(on(RIBBED), number);
    for knit in [2, u32::MAX] {
        assert_eq!(on(knit), if number == 1 { 1 } else { 11 });
    }
    number
}

/// The same for the record's knit. On a refusal nothing has changed and the record is given back, for every budget.
fn sheet_number_on(progress: Progress, buffers: &Buffers, lent: (usize, usize, usize)) -> u32 {
    let mut after = buffers.clone();
    let pyramid = &mut after.pyramid[..lent.0];
    let serials = &mut after.serials[..lent.1];
    let order = &mut after.order[..lent.2];
    let mut out = vec![b'#'; 1_000];
    let list = drill_list(progress, pyramid, serials, order, &mut out);
    let number = list.map_or_else(Refusal::number, |_| 0);
    for budget in [0, 1, u32::MAX] {
        let answer = advance(progress, budget, pyramid, serials, order);
        assert_eq!(answer.status.map_or_else(Refusal::number, |_| 0), number);
        if number > 0 {
            assert_eq!((answer.progress, answer.made), (progress, 0));
        } else {
            break;
        }
    }
    if number > 0 {
        assert_eq!(after, *buffers);
        assert!(out.iter().all(|byte| *byte == b'#'));
    }
    number
}

/// For S 5.2.
#[test]
fn advance_and_drill_list_refuse_sides_and_lengths() {
    for side in SIDES {
        let (n, p) = needed(side);
        let mut buffers = Buffers::new(side).unwrap();
        let progress = buffers.load(side, PLAIN, &vec![1; n]).progress;
        assert_eq!(sheet_number(progress, &buffers, (p, n, n)), 0);
        for knit in NO_KNITS {
            assert_eq!(sheet_number_on(Progress { knit, ..progress }, &buffers, (p, n, n)), 11);
        }
        // the same numbers on a sheet that isn't sound, since 5 comes later
        let not_sound = odd_buffers(p, n, n);
        assert_eq!(sheet_number(progress, &not_sound, (p, n, n)), 5);
        for buffers in [&buffers, &not_sound] {
            assert_eq!(sheet_number(progress, buffers, (p - 1, n, n)), 3);
            assert_eq!(sheet_number(progress, buffers, (p, n - 1, n)), 4);
            assert_eq!(sheet_number(progress, buffers, (p, n, n - 1)), 4);
            assert_eq!(sheet_number(progress, buffers, (p - 1, n - 1, n - 1)), 3);
            assert_eq!(sheet_number(progress, buffers, (0, 0, 0)), 3);
            for wrong in NO_SIDES {
                let progress = Progress { side: wrong, dots: 0, knit: PLAIN };
                assert_eq!(sheet_number(progress, buffers, (0, 0, 0)), 1);
                assert_eq!(sheet_number(progress, buffers, (p, n, n)), 1);
            }
        }
    }
}

/// Changes a sheet of three dots, and gives the number that Advance and Drill List then answer.
fn number_after(change: impl Fn(&mut Buffers, &mut Progress)) -> u32 {
    let (mut buffers, mut progress) = three_dots();
    change(&mut buffers, &mut progress);
    let number = sheet_number(progress, &buffers, (21, 16, 16));
    assert_eq!(number == 0, buffers.sound(progress));
    number
}

/// The same for a change of one residual, with the coarser sums renewed after it.
fn number_with_residual(cell: usize, residual: i64) -> u32 {
    number_after(|buffers, _| set_residual(buffers, cell, residual))
}

/// Gives a cell a residual, and renews the coarser sums.
fn set_residual(buffers: &mut Buffers, cell: usize, residual: i64) {
    let mut rows = to_rows(4, &buffers.pyramid);
    rows[5 + cell] = residual;
    renew_all(2, &mut rows);
    buffers.pyramid = to_quarters(4, &rows);
}

// The three dots are at the cells 10, 1 and 9: each of the tests below breaks one condition and no other, as far as
// this can be done.
/// For S 4.7.
#[test]
fn the_sheet_of_three_dots() {
    let (buffers, _) = three_dots();
    assert_eq!(buffers.order[..4], [10, 1, 9, 0]);
    assert_eq!(number_after(|_, _| ()), 0);
}

/// For S 4.1.
#[test]
fn condition_1_too_many_dots() {
    for dots in [17, 18, 65_536, u32::MAX - 1, u32::MAX] {
        assert_eq!(number_after(|_, progress| progress.dots = dots), 5);
    }
    // all cells with a dot are not too many
    let mut full = Buffers::new(4).unwrap();
    full.serials = (1..=16).collect();
    full.order = (0..16).collect();
    let lent = (21, 16, 16);
    assert_eq!(sheet_number(Progress { side: 4, dots: 16, knit: PLAIN }, &full, lent), 0);
    for dots in [17, u32::MAX] {
        assert_eq!(sheet_number(Progress { side: 4, dots, knit: PLAIN }, &full, lent), 5);
    }
}

/// For S 4.2.
#[test]
fn condition_2_order_and_serials_disagree() {
    for cell in [16, 17, u32::MAX] {
        assert_eq!(number_after(|buffers, _| buffers.order[0] = cell), 5);
    }
    assert_eq!(number_after(|buffers, _| buffers.order.swap(0, 1)), 5);
    assert_eq!(number_after(|buffers, _| buffers.order[2] = 10), 5);
    assert_eq!(number_after(|buffers, _| buffers.order[2] = 11), 5);
    for serial in [2, 4, u32::MAX] {
        assert_eq!(number_after(|buffers, _| buffers.serials[10] = serial), 5);
    }
    assert_eq!(number_after(|buffers, _| buffers.serials.swap(9, 10)), 5);
}

/// For S 4.3.
#[test]
fn condition_3_other_serials() {
    // a residual of 0 serves a cell with a dot as well as one without
    for serial in [1, 3, 4, u32::MAX] {
        let number = number_after(|buffers, _| {
            buffers.serials[15] = serial;
            set_residual(buffers, 15, 0);
        });
        assert_eq!(number, 5);
    }
    assert_eq!(number_with_residual(15, 0), 0);
    // one dot too few in the record, with its order place 0
    let mut buffers = Buffers::new(4).unwrap();
    buffers.serials[0] = 1;
    let lent = (21, 16, 16);
    assert_eq!(sheet_number(Progress { side: 4, dots: 0, knit: PLAIN }, &buffers, lent), 5);
    assert_eq!(sheet_number(Progress { side: 4, dots: 1, knit: PLAIN }, &buffers, lent), 0);
}

/// For S 4.4.
#[test]
fn condition_4_unused_places() {
    for place in [3, 4, 15] {
        for cell in [1, 10, 16, u32::MAX] {
            assert_eq!(number_after(|buffers, _| buffers.order[place] = cell), 5);
        }
    }
}

/// For S 4.5.
#[test]
fn condition_5_sums() {
    for entry in 0..5 {
        for change in [1, -1, 1 << 32, 1 << 62] {
            assert_eq!(number_after(|buffers, _| buffers.pyramid[entry] += change), 5);
        }
        for value in [i64::MIN, i64::MAX] {
            assert_eq!(number_after(|buffers, _| buffers.pyramid[entry] = value), 5);
        }
    }
    // the top is right and the level below isn't
    let number = number_after(|buffers, _| {
        buffers.pyramid[1] += 1;
        buffers.pyramid[2] -= 1;
    });
    assert_eq!(number, 5);
    // sums that are right only modulo 2^64
    let number = number_after(|buffers, _| {
        for entry in 1..5 {
            buffers.pyramid[entry] = buffers.pyramid[entry].wrapping_add(1 << 62);
        }
    });
    assert_eq!(number, 5);
}

/// For S 4.6.
#[test]
fn condition_6_high_residuals() {
    assert_eq!(number_with_residual(15, DOT), 0);
    assert_eq!(number_with_residual(15, DOT + 1), 5);
    assert_eq!(number_with_residual(10, 0), 0);
    assert_eq!(number_with_residual(10, 1), 5);
    for cell in 0..16 {
        let number = number_after(|buffers, _| buffers.pyramid[5 + cell] = i64::MAX);
        assert_eq!(number, 5);
    }
    assert_eq!(number_after(|buffers, _| buffers.pyramid.fill(i64::MAX)), 5);
}

/// For S 4.7.
#[test]
fn condition_7_low_residuals() {
    // the cells with the number of dots around each: the dots are at (2, 2), (0, 1) and (2, 1)
    for (cell, dots) in [(3, 0), (0, 1), (2, 1), (15, 1), (5, 3), (6, 3), (9, 1), (10, 1), (13, 2)] {
        assert_eq!(number_with_residual(cell, -DOT * dots), 0);
        assert_eq!(number_with_residual(cell, -DOT * dots - 1), 5);
    }
    for cell in 0..16 {
        let number = number_after(|buffers, _| buffers.pyramid[5 + cell] = i64::MIN);
        assert_eq!(number, 5);
    }
    assert_eq!(number_after(|buffers, _| buffers.pyramid.fill(i64::MIN)), 5);
}

/// For S 9.3, S 6.6.
#[test]
fn drill_list_refuses_a_short_output() {
    let (buffers, progress) = three_dots();
    let expected = b"3,4\n1,2,2\n2,0,1\n3,2,1\n";
    let list = |progress, length: usize| {
        let mut out = vec![b'#'; length];
        let answer = buffers.drill_list(progress, &mut out);
        (answer.map_err(Refusal::number), out)
    };
    for length in [0, 1, expected.len() - 1] {
        assert_eq!(list(progress, length), (Err(8), vec![b'#'; length]));
    }
    assert_eq!(list(progress, expected.len()), (Ok(22), expected.to_vec()));
    let with_tail = [&expected[..], b"###"].concat();
    assert_eq!(list(progress, expected.len() + 3), (Ok(22), with_tail));
    // 5 comes before, and 11 too
    assert_eq!(list(Progress { dots: 2, ..progress }, 0).0, Err(5));
    assert_eq!(list(Progress { knit: RIBBED, ..progress }, 0).0, Err(8));
    assert_eq!(list(Progress { knit: 2, ..progress }, 0).0, Err(11));
    assert_eq!(list(Progress { knit: 2, dots: 2, ..progress }, 0).0, Err(11));
}

/// For S 5.2, S 8.1.
#[test]
fn tally_refuses() {
    let number = |side, serials: usize, level, row, column| {
        let serials: Vec<u32> = (0..serials as u32).collect();
        tally(side, &serials, level, row, column).map_or_else(Refusal::number, |_| 0)
    };
    for side in SIDES {
        let (n, _) = needed(side);
        let r = power(side).unwrap();
        for level in 0..=r {
            let last = 2u32.pow(level) - 1;
            assert_eq!(number(side, n, level, last, last), 0);
            assert_eq!(number(side, n, level, last + 1, last), 6);
            assert_eq!(number(side, n, level, last, last + 1), 6);
            assert_eq!(number(side, n, level, u32::MAX, 0), 6);
            assert_eq!(number(side, n, level, 0, u32::MAX), 6);
            assert_eq!(number(side, n - 1, level, 0, 0), 4);
        }
        for level in [r + 1, 9, 31, 32, 33, 64, u32::MAX] {
            assert_eq!(number(side, n, level, 0, 0), 6);
        }
        assert_eq!(number(side, n - 1, r + 1, 0, 0), 4);
    }
    for side in NO_SIDES {
        assert_eq!(number(side, 300, 0, 0, 0), 1);
        assert_eq!(number(side, 0, 99, 99, 99), 1);
    }
}

/// For S 5.2, S 8.2.
#[test]
fn levels_refuses() {
    let number = |side, greys: usize, serials: usize| {
        levels(side, &vec![255; greys], &vec![0; serials]).map_or_else(Refusal::number, |_| 0)
    };
    for side in SIDES {
        let (n, _) = needed(side);
        assert_eq!(number(side, n, n), 0);
        assert_eq!(number(side, n - 1, n), 2);
        assert_eq!(number(side, n, n - 1), 4);
        assert_eq!(number(side, n - 1, n - 1), 2);
    }
    for side in NO_SIDES {
        assert_eq!(number(side, 300, 300), 1);
        assert_eq!(number(side, 0, 0), 1);
    }
}

/// The number of Quote Page for buffers of these lengths, and whether it wrote the page's bytes and no other.
fn page_number(side: u32, greys: usize, serials: usize, level: u32, out: usize) -> u32 {
    let mut page = vec![b'#'; out];
    match quote_page(side, &vec![255; greys], &vec![9; serials], level, &mut page) {
        Ok(length) => {
            assert_eq!(length, 29 * 4usize.pow(level));
            assert!(page[..length].iter().all(|byte| *byte != b'#'));
            assert!(page[length..].iter().all(|byte| *byte == b'#'));
            0
        }
        Err(refusal) => {
            assert!(page.iter().all(|byte| *byte == b'#'));
            refusal.number()
        }
    }
}

/// For S 5.2.
#[test]
fn quote_page_refuses() {
    for side in SIDES {
        let (n, _) = needed(side);
        let r = power(side).unwrap();
        for level in 0..=r {
            let length = 29 * 4usize.pow(level);
            assert_eq!(page_number(side, n, n, level, length), 0);
            assert_eq!(page_number(side, n, n, level, length + 30), 0);
            assert_eq!(page_number(side, n + 5, n + 5, level, length), 0);
            for short in [0, 1, 28, length / 2, length - 29, length - 1] {
                assert_eq!(page_number(side, n, n, level, short), 8);
            }
            assert_eq!(page_number(side, n - 1, n, level, length), 2);
            assert_eq!(page_number(side, n, n - 1, level, length), 4);
        }
        for level in [r + 1, r + 2, 9, 16, 31, 32, 33, 64, u32::MAX] {
            assert_eq!(page_number(side, n, n, level, 10_000), 6);
        }
    }
    for side in NO_SIDES {
        assert_eq!(page_number(side, 300, 300, 0, 300), 1);
        assert_eq!(page_number(side, 300, 300, 1, 300), 1);
    }
}

/// With any of the checks 1, 2, 4, 6, 8 failing, the first one that fails is told (S 5.2).
#[test]
fn quote_page_refuses_in_order() {
    for side in SIDES {
        let (n, _) = needed(side);
        let r = power(side).unwrap();
        for failing in 0..32u32 {
            let fails = |check: u32| failing & (1 << check) != 0;
            let asked = if fails(0) { side + 1 } else { side };
            let greys = if fails(1) { n - 1 } else { n + 7 };
            let serials = if fails(2) { n - 1 } else { n + 7 };
            let level = if fails(3) { r + 1 } else { 1 };
            let out = if fails(4) { 115 } else { 116 };
            let first = (0..5).find(|check| fails(*check));
            let number = first.map_or(0, |check| [1, 2, 4, 6, 8][check as usize]);
            assert_eq!(page_number(asked, greys, serials, level, out), number);
        }
        assert_eq!(page_number(side, 0, 0, u32::MAX, 0), 2);
        assert_eq!(page_number(side, n, 0, u32::MAX, 0), 4);
        assert_eq!(page_number(side, n, n, u32::MAX, 0), 6);
        assert_eq!(page_number(side, n, n, r, 0), 8);
    }
    for side in NO_SIDES {
        assert_eq!(page_number(side, 0, 0, u32::MAX, 0), 1);
    }
}

/// The number of Sample for a greys buffer of this length, which a refusal leaves as it was.
fn sample_number(seed: u32, side: u32, length: usize) -> u32 {
    let before: Vec<u8> = (0..length).map(|place| place as u8).collect();
    let mut greys = before.clone();
    let answer = sample(seed, side, &mut greys);
    assert!(answer.is_ok() || greys == before);
    answer.map_or_else(Refusal::number, |_| 0)
}

/// For S 5.2.
#[test]
fn sample_refuses() {
    for seed in [0, 1, 1 << 31, u32::MAX] {
        for side in SIDES {
            let (n, _) = needed(side);
            assert_eq!(sample_number(seed, side, n), 0);
            assert_eq!(sample_number(seed, side, n + 1), 0);
            for short in [0, 1, n / 2, n - 1] {
                assert_eq!(sample_number(seed, side, short), 2);
            }
        }
        // 1 comes before 2
        for side in NO_SIDES {
            assert_eq!(sample_number(seed, side, 0), 1);
            assert_eq!(sample_number(seed, side, 300), 1);
            assert_eq!(sample_number(seed, side, 70_000), 1);
        }
    }
}

/// The number of Compare for two sheets of these lengths.
fn compare_number(side: u32, left: usize, right: usize) -> u32 {
    compare(side, &vec![1; left], &vec![2; right]).map_or_else(Refusal::number, |_| 0)
}

/// For S 5.2.
#[test]
fn compare_refuses() {
    for side in SIDES {
        let (n, _) = needed(side);
        assert_eq!(compare_number(side, n, n), 0);
        assert_eq!(compare_number(side, n + 1, n), 0);
        assert_eq!(compare_number(side, n, n + 1), 0);
        for short in [0, 1, n / 2, n - 1] {
            assert_eq!(compare_number(side, short, n), 4);
            assert_eq!(compare_number(side, n, short), 4);
            assert_eq!(compare_number(side, short, short), 4);
            assert_eq!(compare_number(side, short, 2 * n), 4);
            assert_eq!(compare_number(side, 2 * n, short), 4);
        }
    }
    // 1 comes before 4
    for side in NO_SIDES {
        for (left, right) in [(0, 0), (300, 300), (0, 300), (300, 0)] {
            assert_eq!(compare_number(side, left, right), 1);
        }
    }
}

/// The number of Shelf for a shelf and a list of these lengths. A refusal leaves the list as it was; else the plates,
/// which are all the same, are listed as they stand, and the further places stay.
fn shelf_number(side: u32, n: u32, plates: usize, places: usize) -> u32 {
    let before: Vec<u32> = (0..places as u32).map(|place| 31 * place + 70_001).collect();
    let mut list = before.clone();
    let answer = shelf(side, n, &vec![5; plates], &mut list);
    let written = if answer.is_ok() { n as usize } else { 0 };
    assert!(list[..written].iter().copied().eq(0..written as u32));
    assert_eq!(list[written..], before[written..]);
    answer.map_or_else(Refusal::number, |()| 0)
}

/// For S 5.2, S 11.2.
#[test]
fn shelf_refuses() {
    for side in SIDES {
        let (cells, _) = needed(side);
        for n in [1, 2, 3] {
            let (plates, places) = (n as usize * cells, n as usize);
            assert_eq!(shelf_number(side, n, plates, places), 0);
            assert_eq!(shelf_number(side, n, plates + 1, places + 1), 0);
            for short in [0, 1, plates - cells, plates - 1] {
                assert_eq!(shelf_number(side, n, short, places), 4);
                assert_eq!(shelf_number(side, n, short, 1_000), 4);
            }
            for short in 0..places {
                assert_eq!(shelf_number(side, n, plates, short), 8);
                assert_eq!(shelf_number(side, n, plates + cells, short), 8);
            }
        }
        // no plates are a shelf too
        for (plates, places) in [(0, 0), (0, 3), (cells, 0), (1, 1)] {
            assert_eq!(shelf_number(side, 0, plates, places), 0);
        }
    }
    for side in NO_SIDES {
        for n in [0, 1, u32::MAX] {
            assert_eq!(shelf_number(side, n, 0, 0), 1);
            assert_eq!(shelf_number(side, n, 300, 300), 1);
        }
    }
}

/// Checks 1, 4 and 8: with any of them failing, the first one that fails is told (S 5.2).
#[test]
fn shelf_refuses_in_order() {
    for side in SIDES {
        let (cells, _) = needed(side);
        for failing in 0..8u32 {
            let fails = |check: u32| failing & (1 << check) != 0;
            let asked = if fails(0) { side + 1 } else { side };
            let plates = if fails(1) { 2 * cells - 1 } else { 2 * cells + 7 };
            let places = if fails(2) { 1 } else { 9 };
            let first = (0..3).find(|check| fails(*check));
            let number = first.map_or(0, |check| [1, 4, 8][check as usize]);
            assert_eq!(shelf_number(asked, 2, plates, places), number);
        }
    }
}

/// Plates that need 2^32 places and more: neither the largest number of them nor those whose need is small modulo 2^32
/// are taken for fewer (S 11.2).
#[test]
fn shelf_refuses_more_plates_than_there_can_be() {
    for side in SIDES {
        let (cells, _) = needed(side);
        let round = ((1u64 << 32) / cells as u64) as u32;
        for n in [round, round + 1, round - 1, u32::MAX, u32::MAX - 1, 1 << 31] {
            for plates in [0, 1, cells, 2 * cells, 70_000] {
                assert_eq!(shelf_number(side, n, plates, 0), 4);
                assert_eq!(shelf_number(side, n, plates, 70_000), 4);
                assert_eq!(shelf_number(side + 1, n, plates, 70_000), 1);
            }
        }
    }
    assert_eq!(shelf_number(256, 65_536, 0, 65_536), 4);
}

/// The number of Keep. It gives the record back, and a refusal the value too. The knit makes no difference, not even
/// one that is none.
fn keep_number(side: u32, dots: u32, name: u32) -> u32 {
    let checkpoints = Checkpoints { kept: [9, 0, 7, 1, u64::MAX, 5, 4, 3] };
    let plain = keep(Progress { side, dots, knit: PLAIN }, checkpoints, name);
    assert_eq!(plain.checkpoints == checkpoints, plain.status.is_err());
    for knit in [PLAIN, RIBBED, 2, u32::MAX] {
        let progress = Progress { side, dots, knit };
        assert_eq!(keep(progress, checkpoints, name), CheckpointAnswer { progress, ..plain });
    }
    plain.status.map_or_else(Refusal::number, |()| 0)
}

/// For S 5.2.
#[test]
fn keep_refuses() {
    for dots in [100, 65_537, u32::MAX] {
        for side in SIDES {
            for name in 1..=8 {
                assert_eq!(keep_number(side, dots, name), 0);
            }
            for no_name in [0, 9, 1 << 31, u32::MAX] {
                assert_eq!(keep_number(side, dots, no_name), 10);
            }
        }
        // 1 comes before 10
        for side in NO_SIDES {
            for name in [0, 1, 8, 9, u32::MAX] {
                assert_eq!(keep_number(side, dots, name), 1);
            }
        }
    }
}

/// What is handed to Restore, besides the value: two dots are kept under name 5, and 65,537 under name 6.
#[derive(Clone)]
struct Return {
    progress: Progress,
    name: u32,
    greys: Vec<u8>,
    buffers: Buffers,
    lent: [usize; 3],
}

impl Return {
    /// A return to two dots from one dot, on buffers that are longer than needed.
    fn new(side: u32) -> Return {
        let (n, p) = needed(side);
        let mut buffers = odd_buffers(p + 7, n + 7, n + 7);
        let progress = buffers.load(side, PLAIN, &vec![128; n]).progress;
        let progress = buffers.advance(progress, 1).progress;
        Return { progress, name: 5, greys: vec![128; n + 7], buffers, lent: [p + 7, n + 7, n + 7] }
    }

    /// The number of the call. A refusal gives record and value back, and leaves every buffer as it was.
    fn number(&self) -> u32 {
        let checkpoints = Checkpoints { kept: [0, 0, 0, 0, 3, 65_538, 0, u64::MAX] };
        let Buffers { mut pyramid, mut serials, mut order } = self.buffers.clone();
        let (p, s, o) = (&mut pyramid[..self.lent[0]], &mut serials[..self.lent[1]], &mut order[..self.lent[2]]);
        let answer = restore(self.progress, checkpoints, self.name, &self.greys, p, s, o);
        assert_eq!(answer.checkpoints, checkpoints);
        match answer.status {
            Ok(()) => {
                assert_eq!(answer.progress, Progress { dots: 2, ..self.progress });
                0
            }
            Err(refusal) => {
                assert_eq!(answer.progress, self.progress);
                assert_eq!(Buffers { pyramid, serials, order }, self.buffers);
                refusal.number()
            }
        }
    }
}

/// A change with which a check fails.
type Failure = fn(&mut Return);

/// The ways in which each check of Restore fails, by one where it can, with the number that is then told.
const FAILURES: [(u32, Failure); 22] = [
    (1, |asked| asked.progress.side += 1),
    (1, |asked| asked.progress.side = 0),
    (1, |asked| asked.progress.side = 512),
    (11, |asked| asked.progress.knit = 2),
    (11, |asked| asked.progress.knit = u32::MAX),
    (2, |asked| asked.greys.truncate(cell_count(asked.progress.side) - 1)),
    (2, |asked| asked.greys.clear()),
    (3, |asked| asked.lent[0] = needed(asked.progress.side).1 - 1),
    (3, |asked| asked.lent[0] = 0),
    (4, |asked| asked.lent[1] = needed(asked.progress.side).0 - 1),
    (4, |asked| asked.lent[2] = needed(asked.progress.side).0 - 1),
    (4, |asked| asked.lent[1..].fill(0)),
    (5, |asked| asked.progress.dots = 0),
    (5, |asked| asked.buffers.pyramid[0] += 1),
    (5, |asked| asked.buffers.order[3] = 1),
    (12, |asked| asked.greys[0] = 241),
    (12, |asked| asked.greys[cell_count(asked.progress.side) - 1] = 241),
    (12, |asked| asked.greys.fill(255)),
    (10, |asked| asked.name = 0),
    (10, |asked| asked.name = 9),
    (10, |asked| asked.name = 7),
    (10, |asked| asked.name = 6),
];

/// For S 5.2.
#[test]
fn restore_refuses() {
    for side in SIDES {
        let asked = Return::new(side);
        assert_eq!(asked.number(), 0);
        let (n, p) = needed(side);
        assert_eq!(Return { greys: vec![128; n], lent: [p, n, n], ..asked.clone() }.number(), 0);
        let ribbed = Progress { knit: RIBBED, ..asked.progress };
        assert_eq!(Return { progress: ribbed, ..asked.clone() }.number(), 0);
        for knit in NO_KNITS {
            let progress = Progress { knit, ..asked.progress };
            assert_eq!(Return { progress, ..asked.clone() }.number(), 11);
        }
        for (number, fail) in FAILURES {
            let mut asked = asked.clone();
            fail(&mut asked);
            assert_eq!(asked.number(), number);
        }
        for name in [8, 10, 255, 256 + 5, 1 << 31, u32::MAX] {
            assert_eq!(Return { name, ..asked.clone() }.number(), 10);
        }
        // greys behind the map's own are not looked at
        for place in [n, n + 6] {
            let mut asked = asked.clone();
            asked.greys[place] = 255;
            assert_eq!(asked.number(), 0);
        }
    }
    for side in NO_SIDES {
        let mut asked = Return::new(2);
        asked.progress.side = side;
        assert_eq!(asked.number(), 1);
        asked.lent = [0; 3];
        asked.greys.clear();
        asked.name = 0;
        assert_eq!(asked.number(), 1);
    }
}

/// Checks 1, 11, 2, 3, 4, 5, 12 and 10: of any two that fail, in whichever way, the first is told; and of all that fail
/// from one on (S 5.2).
#[test]
fn restore_refuses_in_order() {
    for side in SIDES {
        let whole = Return::new(side);
        for (place, (number, fail)) in FAILURES.into_iter().enumerate() {
            let mut all = whole.clone();
            for (_, other) in FAILURES.into_iter().skip(place + 1).rev() {
                let mut two = whole.clone();
                // a later check fails first, so that it goes by the true side
                other(&mut two);
                fail(&mut two);
                assert_eq!(two.number(), number);
                other(&mut all);
            }
            fail(&mut all);
            assert_eq!(all.number(), number);
        }
    }
}

/// The number of Map Text for a greys buffer of this length, which a refusal leaves as it was.
fn text_number(text: &[u8], length: usize) -> u32 {
    let mut greys = vec![99; length];
    let answer = map_text(text, &mut greys);
    assert!(answer.is_ok() || greys.iter().all(|grey| *grey == 99));
    answer.map_or_else(Refusal::number, |_| 0)
}

/// For S 6.4.
#[test]
fn map_text_first_line() {
    let wrong = "|\n|00\n|02\n|064\n|1000\n|0002\n|2|64|999|2\r\n| 2\n|2 \n|+2\n|-2\n|2,2\n|x\n|\"2\"\n|\
                 18446744073709551618\n|340282366920938463463374607431768211458\n";
    for text in wrong.split('|') {
        assert_eq!(text_number(text.as_bytes(), 0), 7);
        assert_eq!(text_number(text.as_bytes(), 100), 7);
    }
    for text in ["0\n", "1\n", "3\n", "999\n", "257\n", "100\n", "3\nx"] {
        assert_eq!(text_number(text.as_bytes(), 0), 1);
    }
    // a short buffer is 2 whatever follows the first line
    for side in SIDES {
        let (n, _) = needed(side);
        for rest in ["", "x", "0,0\n", "\n\n\n"] {
            assert_eq!(text_number(format!("{side}\n{rest}").as_bytes(), n - 1), 2);
        }
        let text = write_map_text(side, &vec![240; n]);
        assert_eq!(text_number(&text, n - 1), 2);
        assert_eq!(text_number(&text, n), 0);
        assert_eq!(text_number(&text[..text.len() - 1], n), 7);
        assert_eq!(text_number(&[&text[..], b"\n"].concat(), n), 7);
    }
}

/// For S 6.1, S 6.2.
#[test]
fn map_text_other_lines() {
    let mut greys = [99; 6];
    assert_eq!(map_text(b"2\n0,240\n10,7\n", &mut greys), Ok(2));
    assert_eq!(greys, [0, 240, 10, 7, 99, 99]);
    let wrong = "|0,255\n|0,255\n10,7|0,255\n10,7\n\n|0,255\n10,7\n0,0\n|0,256\n10,7\n|0,255\n10,07\n|00,255\n10,7\n|\
                 0,255,\n10,7\n|,255\n10,7\n|0\n255,10,7\n|0,255,10,7\n|0, 255\n10,7\n|0,255\r\n10,7\r\n|0,-1\n10,7\n|\
                 0,1000\n10,7\n|0,18446744073709551616\n10,7\n|0,2x\n10,7\n|0,255\n10,7\nx|\n0,255\n10,7\n|\
                 \"0\",255\n10,7\n|0,\n10,7\n|0;255\n10;7\n|0,255\n\n10,7\n";
    for rest in wrong.split('|') {
        assert_eq!(text_number(format!("2\n{rest}").as_bytes(), 4), 7);
    }
}

/// A text that fits the grammar is read exactly if no grey is above 240: 12 comes last of all (S 9.1).
#[test]
fn map_text_high_greys() {
    for side in SIDES {
        let (n, _) = needed(side);
        for place in [0, 1, n / 2, n - 1] {
            for (grey, number) in [(240, 0), (241, 12), (249, 12), (250, 12), (255, 12)] {
                let mut greys = vec![7; n];
                greys[place] = grey;
                let text = write_map_text(side, &greys);
                assert_eq!(text_number(&text, n), number);
                assert_eq!(text_number(&text, n + 1), number);
                assert_eq!(text_number(&text, n - 1), 2);
                assert_eq!(text_number(&text[..text.len() - 1], n), 7);
                assert_eq!(text_number(&[&text[..], b"0"].concat(), n), 7);
            }
        }
    }
    for (text, number) in [
        ("02\n255,255\n255,255\n", 7),
        ("3\n255,255\n255,255\n", 1),
        ("2\n255,255\n255,256\n", 7),
        ("2\n256,255\n255,255\n", 7),
        ("2\n255,255\n255\n", 7),
        ("2\n0241,0\n0,0\n", 7),
    ] {
        assert_eq!(text_number(text.as_bytes(), 4), number);
    }
}

/// For S 14.1, S 14.7.
#[test]
fn the_program_refuses() {
    // the longest map text of side 32 is just as long as the longest input
    let longest = write_map_text(32, &[240; 1_024]);
    assert_eq!(longest.len(), LONGEST_INPUT);
    let list = plate(&longest);
    assert!(list.starts_with(b"964,32\n"));
    assert_eq!(list.len(), 8_935);
    assert_eq!(plate(&write_map_text(32, &[255; 1_024])), b"refused,12\n");
    assert_eq!(plate(&[&longest[..], b"\n"].concat()), b"refused,9\n");
    assert_eq!(plate(&vec![b'x'; LONGEST_INPUT + 1]), b"refused,9\n");
    assert_eq!(plate(&vec![b'x'; LONGEST_INPUT]), b"refused,7\n");
    for text in ["64\n", "128\n", "256\n", "64\nx", "256\n0,0\n"] {
        assert_eq!(plate(text.as_bytes()), b"refused,2\n");
    }
    for text in ["0\n", "3\n", "999\n"] {
        assert_eq!(plate(text.as_bytes()), b"refused,1\n");
    }
    for text in ["", "64", "2\n0,0\n0,0", "2\n0,0\n0,256\n", "32\n"] {
        assert_eq!(plate(text.as_bytes()), b"refused,7\n");
    }
    for text in ["2\n241,0\n0,0\n", "2\n0,0\n0,241\n", "2\n255,255\n255,255\n"] {
        assert_eq!(plate(text.as_bytes()), b"refused,12\n");
    }
    assert_eq!(plate(b"2\n0,0\n0,0\n"), b"0,2\n");
}

/// For S 14.2.
#[test]
fn the_program_quote_refuses() {
    const MAP: &str = "2\n0,240\n10,7\n";
    let number = |text: &str| String::from_utf8(quote(text.as_bytes())).unwrap();
    // the first line comes before all else, and a map that isn't read before the level
    let wrong = "|\n|00\n|01\n|+1\n|-1\n|-0\n| 1\n|1 \n|1\r\n|1,\n|x\n|1.0\n|\"1\"\n|4294967296\n|04294967295\n|\
                 18446744073709551617\n|\u{661}\n";
    for line in wrong.split('|') {
        for rest in [MAP, "3\n", "64\n", ""] {
            assert_eq!(number(&format!("{line}{rest}")), "refused,7\n", "{line:?}");
        }
    }
    for level in ["0", "1", "2", "5", "6", "4294967295"] {
        for (text, refused) in [("", 7), ("x\n", 7), ("3\n", 1), ("64\n", 2), ("64\nx", 2), ("2\n0,255\n10,7", 7)] {
            assert_eq!(number(&format!("{level}\n{text}")), format!("refused,{refused}\n"));
        }
        // no line end before the map
        assert_eq!(number(level), "refused,7\n");
        assert_eq!(number(&format!("{level}\n2\n0,255\n10,7\n")), "refused,12\n");
    }
    assert_eq!(quote(&[&[255, 10], MAP.as_bytes()].concat()), b"refused,7\n");
    for level in [2, 3, 10, 32, 999, 4_294_967_294, u32::MAX] {
        assert_eq!(number(&format!("{level}\n{MAP}")), "refused,6\n");
    }
    assert_eq!(number(&format!("0\n{MAP}")), "  0   0      257     1     4\n");
    // the largest page: a line for each cell of side 32
    let text = write_map_text(32, &[240; 1_024]);
    let page = quote(&[b"5\n", &text[..]].concat());
    assert_eq!(page.len(), 29_696);
    assert!(page.ends_with(b"\n 31  31      240     1     1\n"));
    assert_eq!(quote(&[b"6\n", &text[..]].concat()), b"refused,6\n");
}

/// For S 2.9.
#[test]
fn longer_buffers_keep_their_tail() {
    for side in [2, 4, 16] {
        let (n, p) = needed(side);
        let greys = maps::named("random", side);
        let long_greys = [&greys[..], &[255; 9]].concat();
        let mut just = Buffers::new(side).unwrap();
        let mut long = odd_buffers(p + 9, n + 9, n + 9);
        let tails = long.clone();
        let mut progress = just.load(side, RIBBED, &greys).progress;
        assert_eq!(long.load(side, RIBBED, &long_greys), just.load(side, RIBBED, &greys));
        for budget in [0, 1, u32::MAX] {
            let answer = just.advance(progress, budget);
            assert_eq!(long.advance(progress, budget), answer);
            progress = answer.progress;
            assert_eq!(long.pyramid, [&just.pyramid[..], &tails.pyramid[p..]].concat());
            assert_eq!(long.serials, [&just.serials[..], &tails.serials[n..]].concat());
            assert_eq!(long.order, [&just.order[..], &tails.order[n..]].concat());
        }
        let total = tally(side, &long.serials, 0, 0, 0);
        assert_eq!(total, Ok(progress.dots));
        let sums = levels(side, &greys, &just.serials);
        assert_eq!(levels(side, &long_greys, &long.serials), sums);
        for level in 0..=power(side).unwrap() {
            let (mut page, mut other) = ([b'#'; 29 * 256], [b'#'; 29 * 256]);
            let length = quote_page(side, &greys, &just.serials, level, &mut page);
            assert_eq!(quote_page(side, &long_greys, &long.serials, level, &mut other), length);
            assert!(length.is_ok() && page == other);
        }
    }
}

/// Buffers of any length with any content, and any numbers: every call answers, and a refusal changes nothing
/// (S 5.1, S 15.16).
#[test]
fn any_lengths_and_any_content() {
    let bits = maps::generated(5, 500_000);
    let mut bits = bits.iter().map(|byte| usize::from(*byte));
    let mut pick = |count: usize| bits.next().unwrap() % count;
    let numbers = [0, 0, 1, 2, 3, 4, 8, 15, 16, 256, 65_280, 1 << 31, u32::MAX];
    let residuals = [0, 0, 1, DOT, -DOT, HALF_DOT, 1 << 62, -1 << 62, i64::MAX, i64::MIN];
    for _ in 0..2_000 {
        let lengths = [5, 21, 21, 85, 4, 16, 16, 64];
        let mut buffers = Buffers {
            pyramid: (0..lengths[pick(4)]).map(|_| residuals[pick(10)]).collect(),
            serials: (0..lengths[4 + pick(4)]).map(|_| numbers[pick(13)]).collect(),
            order: (0..lengths[4 + pick(4)]).map(|_| numbers[pick(13)]).collect(),
        };
        let before = buffers.clone();
        let progress = Progress { side: numbers[pick(13)], dots: numbers[pick(13)], knit: [0, 0, 1, 1, 2][pick(5)] };
        let answer = buffers.advance(progress, numbers[pick(13)]);
        assert!(answer.status.is_ok() || (buffers == before && answer.progress == progress));
        let listed = before.drill_list(progress, &mut [0; 2_000]);
        assert_eq!(listed.is_ok(), answer.status.is_ok());
        let dots = tally(progress.side, &before.serials, pick(9) as u32, pick(9) as u32, pick(9) as u32);
        assert!(dots.is_err() || dots.is_ok_and(|dots| dots <= 64));
        let sums = levels(progress.side, &[255; 64], &before.serials);
        assert!(sums.is_err() || power(progress.side).is_ok());
        let mut page = [b'#'; 600];
        let written = quote_page(progress.side, &[255; 64], &before.serials, pick(9) as u32, &mut page);
        let kept = written.unwrap_or(0);
        assert!(page[kept..].iter().all(|byte| *byte == b'#'));
        let compared = compare(progress.side, &before.serials, &before.order);
        assert!(compared.is_err() || power(progress.side).is_ok());
        let mut list = [9; 5];
        let sorted = shelf(progress.side, numbers[pick(13)], &before.serials, &mut list);
        assert!(sorted.is_ok() || list == [9; 5]);
        let checkpoints = Checkpoints { kept: [(); 8].map(|()| numbers[pick(13)].into()) };
        let answer = keep(progress, checkpoints, pick(10) as u32);
        assert!(answer.status.is_ok() || answer.checkpoints == checkpoints);
        let mut after = before.clone();
        let answer = after.restore(progress, checkpoints, pick(10) as u32, &[240; 64]);
        assert!(answer.status.is_ok() || (after == before && answer.progress == progress));
        assert_eq!(answer.checkpoints, checkpoints);
    }
}
