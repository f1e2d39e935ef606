//! The laser with two heads: small maps worked by hand, what is promised of every map, the refusals, and the program
//! `two_heads`.

use reference::by_rows::{two_heads_in, Macroblock};
use reference::*;

/// Pseudo-random numbers, the same in every run.
struct Dice(u64);

impl Dice {
    fn below(&mut self, bound: usize) -> usize {
        self.0 = self.0.wrapping_mul(6_364_136_223_846_793_005).wrapping_add(1_442_695_040_888_963_407);
        ((self.0 >> 33) % bound as u64) as usize
    }

    fn shuffle<T>(&mut self, items: &mut [T]) {
        for place in (1..items.len()).rev() {
            items.swap(place, self.below(place + 1));
        }
    }

    /// A map of one of several kinds: any greys, few dark cells, low greys, high greys, two greys, a dark half, dark
    /// cells on the rims of macroblocks only.
    fn greys(&mut self, side: u32) -> Vec<u8> {
        let (kind, limit) = (self.below(7), self.below(241) + 1);
        let cells = cell_count(side);
        let mut grey = |cell: usize| match kind {
            0 => self.below(241),
            1 => 240 * usize::from(self.below(8) == 0),
            2 => self.below(limit),
            3 => 240 - self.below(limit),
            4 => (limit - 1) * self.below(2),
            5 => (limit - 1) * usize::from(cell >= cells / 2),
            _ => self.below(241) * usize::from(on_a_rim(side, cell)),
        };
        (0..cells).map(|cell| grey(cell) as u8).collect()
    }
}

/// Whether a cell is the first or the last of four by its row or its column.
fn on_a_rim(side: u32, cell: usize) -> bool {
    let side = side as usize;
    [cell / side, cell % side].iter().any(|place| [0, 3].contains(&(place % 4)))
}

/// How many maps of each side are tried, every other one on ribbed cloth.
const TRIED: [(u32, usize); 3] = [(16, 300), (32, 60), (64, 6)];

fn for_every_map(seed: u64, mut check: impl FnMut(&mut Dice, u32, u32, &[u8])) {
    let mut dice = Dice(seed);
    for (side, maps) in TRIED {
        for map in 0..maps {
            let greys = dice.greys(side);
            check(&mut dice, side, [PLAIN, RIBBED][map % 2], &greys);
        }
    }
}

/// A map of side 16 with these greys, by row and column, and 0 in all other cells.
fn map(cells: &[(usize, usize, u8)]) -> Vec<u8> {
    let mut greys = vec![0; 256];
    for (row, column, grey) in cells {
        greys[16 * row + column] = *grey;
    }
    greys
}

/// The run of such a map: the cells in the order of their dots, and the debt.
fn burnt(knit: u32, cells: &[(usize, usize, u8)]) -> (Vec<(u32, u32)>, i64) {
    let mut buffers = Buffers::new(16).unwrap();
    let answer = buffers.two_heads(16, knit, &map(cells));
    assert_eq!(answer.status, Ok(()));
    let order = &buffers.order[..answer.made as usize];
    (order.iter().map(|cell| (cell / 16, cell % 16)).collect(), answer.debt)
}

/// A dot is 65,280, a grey 256 times itself.
fn debt(grey_sum: i64, dots: i64) -> i64 {
    256 * grey_sum - 65_280 * dots
}

/// For S 13.2.
#[test]
fn nothing_is_owed() {
    assert_eq!(burnt(PLAIN, &[]), (vec![], 0));
    // 127 is a little less than half a dot, 128 a little more
    assert_eq!(burnt(PLAIN, &[(3, 3, 127)]), (vec![], debt(127, 0)));
    assert_eq!(burnt(PLAIN, &[(3, 3, 128)]), (vec![(3, 3)], debt(128, 1)));
}

/// The dark cell of the macroblock lies on its rim, on one side after the other, and no other macroblock owes enough
/// (S 13.3).
#[test]
fn rim_cells_are_not_burnt() {
    for (rim, other) in [((7, 2), (2, 2)), ((2, 7), (2, 2)), ((8, 2), (13, 2)), ((2, 8), (2, 13)), ((7, 7), (2, 2))] {
        let cells = [(rim.0, rim.1, 127), (other.0, other.1, 100)];
        assert_eq!(burnt(PLAIN, &cells), (vec![], debt(227, 0)));
        // with a little more it is burnt in the macroblock that it lies inside of
        let cells = [(rim.0, rim.1, 128), (other.0, other.1, 100)];
        assert_eq!(burnt(PLAIN, &cells), (vec![(rim.0 as u32, rim.1 as u32)], debt(228, 1)));
    }
    // the rim of the macroblock in the middle of the map
    assert_eq!(burnt(PLAIN, &[(4, 8, 100), (10, 8, 99), (10, 4, 2)]).0, []);
}

/// For S 13.3.
#[test]
fn rim_cells_at_the_edge_of_the_map_are_burnt() {
    for (row, column) in [(0, 3), (15, 3), (3, 0), (3, 15), (0, 0), (0, 15), (15, 0), (15, 15)] {
        let expected = (vec![(row as u32, column as u32)], debt(240, 1));
        assert_eq!(burnt(PLAIN, &[(row, column, 240)]), expected);
        assert_eq!(burnt(RIBBED, &[(row, column, 240)]), expected);
    }
    // on two sides of the rim, only one of which is the edge
    for (row, column) in [(0, 7), (7, 0)] {
        assert_eq!(burnt(PLAIN, &[(row, column, 127), (2, 2, 100)]), (vec![], debt(227, 0)));
    }
}

/// Each cell can be burnt at one offset alone (S 13.1, S 13.4).
#[test]
fn offsets_in_turn() {
    let cells = [(2, 2, 240), (2, 7, 239), (7, 2, 238), (7, 7, 237)];
    assert_eq!(burnt(PLAIN, &cells).0, [(2, 2), (2, 7), (7, 2), (7, 7)]);
    // the darkest keeps the others back until its own round
    let cells = [(2, 2, 237), (2, 7, 238), (7, 2, 239), (7, 7, 240)];
    assert_eq!(burnt(PLAIN, &cells).0, [(7, 7), (2, 7), (7, 2), (2, 2)]);
}

/// Three rounds without a dot do not end the run, nor do four that are not in a row (S 13.4).
#[test]
fn ends_after_four_rounds_in_a_row() {
    assert_eq!(burnt(PLAIN, &[(7, 7, 240)]), (vec![(7, 7)], debt(240, 1)));
    assert_eq!(burnt(PLAIN, &[(7, 7, 240), (8, 8, 239)]), (vec![(7, 7), (8, 8)], debt(479, 2)));
}

/// The first dot, of 237, takes 384 from the cell (4, 4), so that the macroblock in the middle comes to just half a dot
/// in its round: 256 x 129 - 384 (S 13.2).
#[test]
fn just_half_a_dot() {
    assert_eq!(burnt(PLAIN, &[(3, 3, 237), (6, 6, 129)]), (vec![(3, 3), (6, 6)], debt(366, 2)));
    // on ribbed cloth each neighbour loses 1,152: 256 x 132 - 1,152
    assert_eq!(burnt(RIBBED, &[(3, 1, 237), (6, 2, 132)]), (vec![(3, 1), (6, 2)], debt(369, 2)));
}

/// Two dots, of 239 and 229, take 342 and 555 from its corners, and it comes to 256 x 131 - 897, one less than half
/// (S 13.2).
#[test]
fn just_below_half_a_dot() {
    let cells = [(3, 12, 239), (6, 9, 131), (12, 3, 229)];
    assert_eq!(burnt(PLAIN, &cells), (vec![(3, 12), (12, 3)], debt(599, 2)));
}

/// Among blocks, within a block, and within four cells. It is the first for every dot, odd or even (S 13.2).
#[test]
fn first_of_equals() {
    for (first, last) in [((1, 1), (1, 5)), ((1, 1), (5, 1)), ((1, 5), (5, 1)), ((1, 1), (1, 2)), ((2, 2), (3, 3))] {
        let cells = [(first.0, first.1, 64), (last.0, last.1, 64)];
        assert_eq!(burnt(PLAIN, &cells).0, [(first.0 as u32, first.1 as u32)]);
    }
    let cells = [(1, 1, 64), (1, 5, 64), (9, 9, 64), (9, 13, 64)];
    assert_eq!(burnt(PLAIN, &cells).0, [(1, 1), (9, 9)]);
}

/// The block with the largest sum is taken, and not the one with the darkest cell (S 13.2).
#[test]
fn largest_block() {
    assert_eq!(burnt(PLAIN, &[(1, 1, 100), (5, 5, 61), (5, 6, 60)]).0, [(5, 5)]);
}

/// For S 13.4.
#[test]
fn serials_by_row_then_column() {
    let cells = [(2, 2, 237), (2, 10, 238), (10, 2, 239), (10, 10, 240)];
    assert_eq!(burnt(PLAIN, &cells).0, [(2, 2), (2, 10), (10, 2), (10, 10)]);
}

/// The debts around a dot: those of the engine, inside the map, at its edge and in its corner (S 13.3).
#[test]
fn spread_by_the_engines_rules() {
    for (cell, knit) in [((7, 7), PLAIN), ((0, 3), PLAIN), ((15, 15), PLAIN), ((7, 7), RIBBED), ((3, 0), RIBBED)] {
        let greys = map(&[(cell.0, cell.1, 239)]);
        let (mut one, mut two) = (Buffers::new(16).unwrap(), Buffers::new(16).unwrap());
        let start = one.load(16, knit, &greys).progress;
        one.advance(start, u32::MAX);
        two.two_heads(16, knit, &greys);
        assert_eq!(one, two);
    }
}

/// A run row after row, with an order of its own for each round.
fn arranged(
    side: u32,
    knit: u32,
    greys: &[u8],
    arrange: &mut dyn FnMut(&mut Vec<Macroblock>),
) -> (TwoHeadsAnswer, Buffers) {
    let mut buffers = Buffers::new(side).unwrap();
    let Buffers { pyramid, serials, order } = &mut buffers;
    let answer = two_heads_in(side, knit, greys, pyramid, serials, order, arrange);
    (answer, buffers)
}

/// Whichever macroblock of a round comes first, pyramid and burnt cells are the same; so are the serials, which do not
/// go by it (S 15.15).
#[test]
fn any_order_within_a_round() {
    for_every_map(13, |dice, side, knit, greys| {
        let straight = arranged(side, knit, greys, &mut |_| ());
        assert_eq!(arranged(side, knit, greys, &mut |all| all.reverse()), straight);
        for _ in 0..2 {
            assert_eq!(arranged(side, knit, greys, &mut |all| dice.shuffle(all)), straight);
        }
    });
}

/// The rounds have their macroblocks by row, then column, wholly on the map: 4 by 4 of them at side 32, and one fewer
/// each way that is offset (S 13.1).
#[test]
fn macroblocks_of_the_rounds() {
    let mut rounds = Vec::new();
    arranged(32, PLAIN, &[0; 1_024], &mut |all| rounds.push(all.clone()));
    assert_eq!(rounds.len(), 4);
    for (round, (top, left)) in rounds.iter().zip([(0, 0), (0, 4), (4, 0), (4, 4)]) {
        let rows: Vec<usize> = (top..=24).step_by(8).collect();
        let columns: Vec<usize> = (left..=24).step_by(8).collect();
        let expected: Vec<Macroblock> =
            rows.iter().flat_map(|row| columns.iter().map(move |column| (*row, *column))).collect();
        assert_eq!(*round, expected);
        assert_eq!(round.len(), (4 - top / 4) * (4 - left / 4));
    }
}

/// A sheet that the reference's own test finds sound: no cell twice, and every sum right. What the dots are worth and
/// the debt come to all greys (S 15.15).
#[test]
fn sound_and_nothing_lost() {
    for_every_map(14, |_, side, knit, greys| {
        let mut buffers = Buffers::new(side).unwrap();
        let answer = buffers.two_heads(side, knit, greys);
        assert_eq!(answer.progress, Progress { side, dots: answer.made, knit });
        assert!(buffers.sound(answer.progress));
        let mut cells = buffers.order[..answer.made as usize].to_vec();
        cells.sort();
        cells.dedup();
        assert_eq!(cells.len(), answer.made as usize);
        let grey_sum: i64 = greys.iter().map(|grey| i64::from(*grey)).sum();
        assert_eq!(answer.debt, debt(grey_sum, i64::from(answer.made)));
        assert_eq!(answer.debt, buffers.pyramid[0]);
    });
}

/// The cell that a square comes to: of its quarters the first with the largest sum, and so on down to a cell.
fn wanted(owed: &dyn Fn(usize, usize) -> i64, (top, left): (usize, usize), wide: usize) -> (usize, usize) {
    if wide == 1 {
        return (top, left);
    }
    let half = wide / 2;
    let sum = |(row, column): (usize, usize)| -> i64 {
        (0..half * half).map(|cell| owed(row + cell / half, column + cell % half)).sum()
    };
    let mut best = (top, left);
    for quarter in [(top, left + half), (top + half, left), (top + half, left + half)] {
        if sum(quarter) > sum(best) {
            best = quarter;
        }
    }
    wanted(owed, best, half)
}

/// At the end each macroblock of each offset owes less than half a dot, or comes to a cell that has a neighbour outside
/// of it (S 15.15).
#[test]
fn nothing_is_left_to_burn() {
    for_every_map(15, |_, side, knit, greys| {
        let mut rounds = Vec::new();
        let (_, buffers) = arranged(side, knit, greys, &mut |round| rounds.push(round.clone()));
        let owed = |row: usize, column: usize| buffers.pyramid[entry(power(side).unwrap(), row, column)];
        for (top, left) in rounds.into_iter().rev().take(4).flatten() {
            let sum: i64 = (0..64).map(|cell| owed(top + cell / 8, left + cell % 8)).sum();
            let (row, column) = wanted(&owed, (top, left), 8);
            let is_inside =
                |near: &Neighbour| (top..top + 8).contains(&near.row) && (left..left + 8).contains(&near.column);
            assert!(sum < HALF_DOT || !neighbours(side, row, column).iter().all(is_inside));
        }
    });
}

/// Each refusal with all that are looked for later: 1, 14, 11, 2, 3, 4, 12. A refusal writes nothing (S 5.2, S 13.5).
#[test]
fn refusals_in_order() {
    let refused = |side: u32, knit: u32, high: bool, lent: [usize; 4]| {
        let greys = vec![if high { 241 } else { 200 }; lent[0]];
        let mut buffers = Buffers { pyramid: vec![-7; lent[1]], serials: vec![9; lent[2]], order: vec![8; lent[3]] };
        let before = buffers.clone();
        let answer = buffers.two_heads(side, knit, &greys);
        let number = answer.status.err().map_or(0, Refusal::number);
        if number != 0 {
            assert_eq!(buffers, before);
            assert_eq!((answer.progress, answer.made, answer.debt), (Progress { side: 0, dots: 0, knit: 0 }, 0, 0));
        }
        number
    };
    for side in [0, 1, 3, 15, 17, 255, 257, 512, u32::MAX] {
        assert_eq!(refused(side, 2, true, [0; 4]), 1);
    }
    for side in [2, 4, 8] {
        assert_eq!(refused(side, 2, true, [0; 4]), 14);
        assert_eq!(refused(side, PLAIN, false, [99; 4]), 14);
    }
    for side in [16, 32, 64, 128, 256] {
        let (n, needed) = (cell_count(side), pyramid_length(power(side).unwrap()));
        assert_eq!(refused(side, 2, true, [0; 4]), 11);
        assert_eq!(refused(side, RIBBED, true, [n - 1, 0, 0, 0]), 2);
        assert_eq!(refused(side, RIBBED, true, [n, needed - 1, 0, 0]), 3);
        assert_eq!(refused(side, RIBBED, true, [n, needed, n - 1, n]), 4);
        assert_eq!(refused(side, RIBBED, true, [n, needed, n, n - 1]), 4);
        assert_eq!(refused(side, RIBBED, true, [n, needed, n, n]), 12);
        assert_eq!(refused(side, RIBBED, false, [n, needed, n, n]), 0);
    }
}

/// A grey past the map may be high, and places past the needed lengths stay (S 2.9).
#[test]
fn places_past_stay() {
    let greys = [map(&[(3, 3, 200)]), vec![255; 3]].concat();
    let mut buffers = Buffers { pyramid: vec![5; 343], serials: vec![6; 259], order: vec![7; 260] };
    let answer = buffers.two_heads(16, PLAIN, &greys);
    assert_eq!((answer.made, answer.status), (1, Ok(())));
    let mut exact = Buffers::new(16).unwrap();
    exact.two_heads(16, PLAIN, &greys);
    assert_eq!(buffers.pyramid, [exact.pyramid, vec![5; 2]].concat());
    assert_eq!(buffers.serials, [exact.serials, vec![6; 3]].concat());
    assert_eq!(buffers.order, [exact.order, vec![7; 4]].concat());
    // the last grey of the map may not
    let mut greys = greys;
    greys[255] = 241;
    assert_eq!(exact_number(&greys), 12);
}

fn exact_number(greys: &[u8]) -> u32 {
    let answer = Buffers::new(16).unwrap().two_heads(16, PLAIN, greys);
    answer.status.err().map_or(0, Refusal::number)
}

/// The pyramid lies by quarters.
#[test]
fn by_quarters() {
    let greys = maps::sampled(5, 256);
    let (answer, rows) = arranged(16, PLAIN, &greys, &mut |_| ());
    let mut buffers = Buffers::new(16).unwrap();
    assert_eq!(buffers.two_heads(16, PLAIN, &greys), answer);
    assert_eq!(buffers.pyramid, to_quarters(16, &rows.pyramid));
    assert!(buffers.pyramid != rows.pyramid);
}

/// What is promised of one head is no promise here: its total, either way, and the cap of the whole map (S 15.15).
#[test]
fn promises_of_one_head_do_not_hold() {
    let holes = |side: u32, greys: &[u8]| Buffers::new(side).unwrap().two_heads(side, PLAIN, greys).made;
    // no macroblock of a map of greys of 1 owes half a dot, while all of them together owe one
    assert_eq!((holes(16, &[1; 256]), total(&[1; 256])), (0, 1));
    // macroblocks that owe half a dot each burn one each
    let one_each = |side: usize| -> Vec<u8> {
        (0..side * side).map(|cell| 128 * u8::from((cell / side % 8, cell % side % 8) == (3, 3))).collect()
    };
    assert_eq!((holes(16, &one_each(16)), total(&one_each(16))), (4, 2));
    assert_eq!((holes(256, &one_each(256)), total(&one_each(256))), (1_024, 514));
    let mut page = vec![0; 29];
    quote_page(256, &one_each(256), &[0; 65_536], 0, &mut page).unwrap();
    assert!(page.ends_with(b"  856\n"));
}

fn total(greys: &[u8]) -> u32 {
    (2 * greys.iter().map(|grey| u32::from(*grey)).sum::<u32>() + 255) / 510
}

fn printed(input: &[u8]) -> String {
    String::from_utf8(two_heads_text(input)).unwrap()
}

/// For S 14.6.
#[test]
fn the_program() {
    let text = write_map_text(16, &map(&[(2, 7, 238), (7, 2, 239), (7, 7, 240)]));
    assert_eq!(printed(&text), "3,16\n1,7,7\n2,2,7\n3,7,2\n");
    let longest = write_map_text(32, &[137; 1_024]);
    assert_eq!(longest.len(), LONGEST_INPUT);
    assert!(printed(&longest).ends_with("\n") && printed(&longest).contains(",32\n1,"));
    assert_eq!(printed(&[&longest[..], b"\n"].concat()), "refused,9\n");
    for side in [2, 4, 8] {
        assert_eq!(printed(&write_map_text(side, &vec![240; cell_count(side)])), "refused,14\n");
        // what is wrong with the text is told before
        assert_eq!(printed(&write_map_text(side, &vec![241; cell_count(side)])), "refused,12\n");
        assert_eq!(printed(format!("{side}\n1,1\n").as_bytes()), "refused,7\n");
    }
    assert_eq!(printed(b""), "refused,7\n");
    assert_eq!(printed(b"12\n"), "refused,1\n");
    assert_eq!(printed(b"64\n"), "refused,2\n");
    assert_eq!(printed(&write_map_text(16, &[241; 256])), "refused,12\n");
}
