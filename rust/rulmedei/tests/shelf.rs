//! Compare and Shelf: each answer, each refusal in its order, and finished maps on a shelf.

use rulmedei::Compared::{self, After, Before, Same};
use rulmedei::{advance, cells, codes, compare, load, lower, pyramid_length, sample, shelf, Refusal, PLAIN};

const HEADER: &str = include_str!("../../../include/rulmedei.h");

/// Five plates of side 2 and one place more: plates 0 and 2 are burnt alike, and plate 3 not at all.
const FIVE: [u32; 21] = [1, 0, 0, 0, 0, 5, 0, 0, 3, 0, 0, 0, 0, 0, 0, 0, 1, 2, 0, 0, 7];

fn before_at(row: u32, column: u32) -> Compared {
    Compared::BeforeAt { row, column }
}

fn after_at(row: u32, column: u32) -> Compared {
    Compared::AfterAt { row, column }
}

/// Pairs of plates of side 2, and the answer for each.
fn pairs() -> [([u32; 4], [u32; 4], Compared); 8] {
    [
        ([1, 0, 0, 0], [0, 0, 1, 2], Before),
        ([0, 0, 1, 2], [1, 0, 0, 0], After),
        ([0, 1, 0, 0], [0, 0, 1, 0], after_at(0, 1)),
        ([0, 0, 1, 0], [0, 1, 0, 0], before_at(0, 1)),
        ([0, 0, 0, 3], [0, 0, 3, 0], before_at(1, 0)),
        ([1, 0, 0, 2], [9, 0, 0, u32::MAX], Same),
        ([0; 4], [0; 4], Same),
        ([0, 0, 0, 1 << 31], [0; 4], After),
    ]
}

/// For S 11.1, S 16.3.
#[test]
fn compare_answers() {
    for (left, right, expected) in pairs() {
        assert_eq!(compare(2, &left, &right), Ok(expected), "{left:?} and {right:?}");
        assert_eq!(compare(2, &left, &left), Ok(Same));
    }
    // what lies past the cells plays no part
    assert_eq!(compare(2, &[1, 2, 0, 0, 3], &[2, 1, 0, 0, 0]), Ok(Same));
}

/// The number that the header has for a name.
fn in_header(name: &str) -> u32 {
    let line = HEADER.lines().find_map(|line| line.strip_prefix(&format!("#define RULMEDEI_{name} "))).unwrap();
    line.split_whitespace().next().unwrap().parse().unwrap()
}

/// For S 16.1.
#[test]
fn compare_returns_the_header_s_codes_and_a_cell_with_two_of_them() {
    for (left, right, expected) in pairs() {
        let (name, cell) = match expected {
            Before => ("BEFORE", [0, 0]),
            Compared::BeforeAt { row, column } => ("BEFORE_AT", [row, column]),
            Same => ("SAME", [0, 0]),
            Compared::AfterAt { row, column } => ("AFTER_AT", [row, column]),
            After => ("AFTER", [0, 0]),
        };
        assert_eq!(codes::compare(2, &left, &right), (in_header(name), cell));
    }
    assert_eq!(codes::compare(3, &[], &[]), (1, [0, 0]));
    assert_eq!(codes::compare(2, &[1; 3], &[0; 4]), (4, [0, 0]));
}

/// For S 5.2.
#[test]
fn compare_refuses_in_order() {
    for no_side in [0, 1, 3, 512, u32::MAX] {
        assert_eq!(compare(no_side, &[], &[]), Err(Refusal::SideUnknown));
        assert_eq!(compare(no_side, &[1; 16], &[2; 16]), Err(Refusal::SideUnknown));
    }
    assert_eq!(compare(4, &[1; 15], &[2; 16]), Err(Refusal::SheetShort));
    assert_eq!(compare(4, &[1; 16], &[2; 15]), Err(Refusal::SheetShort));
    assert_eq!(compare(4, &[], &[]), Err(Refusal::SheetShort));
    assert_eq!(compare(4, &[1; 16], &[2; 16]), Ok(Same));
}

/// For S 11.2.
#[test]
fn shelf_lists_the_plates_in_order() {
    let mut list = [9; 6];
    assert_eq!(shelf(2, 5, &FIVE, &mut list), Ok(()));
    assert_eq!(list, [3, 1, 0, 2, 4, 9]);
    let mut list = [9; 2];
    assert_eq!(shelf(2, 2, &FIVE, &mut list), Ok(()));
    assert_eq!(list, [1, 0]);
    assert_eq!(shelf(2, 1, &FIVE, &mut list), Ok(()));
    assert_eq!(list, [0, 0]);
    assert_eq!(shelf(2, 0, &[], &mut []), Ok(()));
    assert_eq!(shelf(256, 0, &FIVE, &mut list), Ok(()));
    assert_eq!(list, [0, 0]);
}

/// For S 5.2.
#[test]
fn shelf_refuses_in_order() {
    let mut list = [9; 3];
    let mut number = |side, n, plates: usize, places: usize| {
        shelf(side, n, &[5; 48][..plates], &mut list[..places]).map_err(Refusal::number)
    };
    for no_side in [0, 1, 3, 512, u32::MAX] {
        assert_eq!(number(no_side, 0, 48, 3), Err(1));
        assert_eq!(number(no_side, u32::MAX, 0, 0), Err(1));
    }
    assert_eq!(number(4, 3, 47, 2), Err(4));
    assert_eq!(number(4, 3, 47, 3), Err(4));
    assert_eq!(number(4, 4, 48, 3), Err(4));
    assert_eq!(number(4, 3, 48, 2), Err(8));
    assert_eq!(number(4, 1, 48, 0), Err(8));
    // 2^32 places and more
    assert_eq!(number(256, 65_536, 0, 0), Err(4));
    assert_eq!(number(256, u32::MAX, 9, 3), Err(4));
    assert_eq!(number(2, (1 << 30) + 1, 48, 3), Err(4));
    assert_eq!(list, [9; 3]);
}

/// The serial sheet of a sample, lowered and finished; its first greys are 0, so many of them.
fn plate(side: u32, light: usize) -> Vec<u32> {
    let mut greys = vec![0; cells(side)];
    sample(1, side, &mut greys).unwrap();
    lower(&mut greys);
    greys[..light].fill(0);
    let (mut pyramid, mut serials, mut order) =
        (vec![0; pyramid_length(side)], vec![0; cells(side)], vec![0; cells(side)]);
    let start = load(side, PLAIN, &greys, &mut pyramid, &mut serials, &mut order).unwrap();
    advance(start, u32::MAX, &mut pyramid, &mut serials, &mut order).unwrap();
    serials
}

/// The lighter a map, the fewer holes its plate has (S 11.2).
#[test]
fn plates_of_finished_maps() {
    for side in [8, 16, 32] {
        let (third, two_thirds) = (cells(side) / 3, 2 * cells(side) / 3);
        let plates = [0, two_thirds, third, cells(side), 0, third].map(|light| plate(side, light)).concat();
        let mut list = [9; 7];
        assert_eq!(shelf(side, 6, &plates, &mut list), Ok(()));
        assert_eq!(list, [3, 1, 2, 5, 0, 4, 9]);
        for pair in list[..6].windows(2) {
            let [left, right] = [pair[0], pair[1]].map(|number| &plates[number as usize * cells(side)..]);
            let expected = if [[2, 5], [0, 4]].contains(&[pair[0], pair[1]]) { Same } else { Before };
            assert_eq!(compare(side, left, right), Ok(expected));
        }
    }
}
