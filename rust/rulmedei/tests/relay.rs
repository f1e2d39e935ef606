//! The layout of the pyramid, and Relay: an older sheet, whose pyramid lies row after row.

use rulmedei::*;

/// The pyramid of a side written row after row, as earlier versions left it.
fn row_after_row(power: u32, pyramid: &[i64]) -> Vec<i64> {
    let mut rows = Vec::new();
    for level in 0..=power {
        for cell in 0..4usize.pow(level) {
            rows.push(pyramid[place(level, cell >> level, cell % 2usize.pow(level))]);
        }
    }
    rows
}

struct Sheet {
    record: Progress,
    pyramid: Vec<i64>,
    serials: Vec<u32>,
    order: Vec<u32>,
}

/// The sample of seed 1, lowered, with some holes, in the layout of today.
fn sheet(side: u32, knit: u32, dots: u32) -> Sheet {
    let mut greys = vec![0; cells(side)];
    sample(1, side, &mut greys).unwrap();
    lower(&mut greys);
    let (mut pyramid, mut serials, mut order) =
        (vec![0; pyramid_length(side)], vec![0; cells(side)], vec![0; cells(side)]);
    let start = load(side, knit, &greys, &mut pyramid, &mut serials, &mut order).unwrap();
    let record = advance(start, dots, &mut pyramid, &mut serials, &mut order).unwrap().progress;
    Sheet { record, pyramid, serials, order }
}

/// Each place once; the four below an entry side by side; level after level (S 2.5).
#[test]
fn places() {
    let mut used = vec![0; pyramid_length(256)];
    for level in 0..=8 {
        for (row, column) in (0..4usize.pow(level)).map(|cell| (cell >> level, cell % 2usize.pow(level))) {
            let at = place(level, row, column);
            used[at] += 1;
            assert_eq!(place(level + 1, 2 * row + 1, 2 * column), 4 * at + 3);
            assert_eq!(place(level + 1, 2 * row, 2 * column + 1), 4 * at + 2);
        }
    }
    assert!(used.iter().all(|times| *times == 1));
}

/// For S 12.2.
#[test]
fn relay_gives_the_pyramid_back() {
    for power in 1..=8 {
        for knit in [PLAIN, RIBBED] {
            let sheet = sheet(1 << power, knit, 40);
            let old = row_after_row(power, &sheet.pyramid);
            let mut second = vec![7; old.len() + 1];
            assert_eq!(relay(sheet.record, &old, &sheet.serials, &sheet.order, &mut second), Ok(()));
            assert_eq!(second[..old.len()], sheet.pyramid);
            assert_eq!(second[old.len()], 7);
        }
    }
}

/// Of several refusals the first is told; none of them writes (S 5.2).
#[test]
fn relay_refuses_in_order() {
    let sheet = sheet(4, PLAIN, 3);
    let old = row_after_row(2, &sheet.pyramid);
    let answer = |record: Progress, pyramid: &[i64], [serials, order, second]: [usize; 3]| {
        let mut into = vec![7; second];
        let answer = relay(record, pyramid, &sheet.serials[..serials], &sheet.order[..order], &mut into);
        assert_eq!(answer.is_err(), into.iter().all(|entry| *entry == 7));
        answer
    };
    let record = sheet.record;
    let wrong = Progress { dots: 2, ..record };
    assert_eq!(answer(Progress { side: 5, knit: 2, ..wrong }, &[], [0; 3]), Err(Refusal::SideUnknown));
    assert_eq!(answer(Progress { knit: 2, ..wrong }, &[], [0; 3]), Err(Refusal::KnitUnknown));
    assert_eq!(answer(wrong, &old[..20], [0, 0, 21]), Err(Refusal::PyramidShort));
    assert_eq!(answer(wrong, &old, [0, 0, 20]), Err(Refusal::PyramidShort));
    assert_eq!(answer(wrong, &old, [15, 16, 21]), Err(Refusal::SheetShort));
    assert_eq!(answer(wrong, &old, [16, 15, 21]), Err(Refusal::SheetShort));
    assert_eq!(answer(wrong, &old, [16, 16, 21]), Err(Refusal::SheetUnsound));
    assert_eq!(answer(record, &sheet.pyramid, [16, 16, 21]), Err(Refusal::SheetUnsound));
    assert_eq!(answer(record, &old, [16, 16, 21]), Ok(()));
}
