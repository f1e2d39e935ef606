//! Two plates compared and a shelf of plates put in order: answers worked by hand, the laws of the order on all
//! patterns of side 2, the standard library's sort beside it, and the comparisons counted.

use reference::Compared::{After, AfterAt, Before, BeforeAt, Same};
use reference::*;

/// Five plates of side 2 and one place more: plates 0 and 2 are burnt alike, and plate 3 not at all.
const FIVE: [u32; 21] = [1, 0, 0, 0, 0, 5, 0, 0, 3, 0, 0, 0, 0, 0, 0, 0, 1, 2, 0, 0, 7];

/// The answer for two sheets that have to be compared.
fn answer(side: u32, left: &[u32], right: &[u32]) -> Compared {
    compare(side, left, right).unwrap()
}

/// The list afterwards, for a shelf that has to be put in order; each of its places is 9 before.
fn sorted(side: u32, n: u32, plates: &[u32], places: usize) -> Vec<u32> {
    let mut list = vec![9; places];
    assert_eq!(shelf(side, n, plates, &mut list), Ok(()));
    list
}

/// A sheet that is burnt in these cells.
fn burnt_in(side: u32, cells: &[usize]) -> Vec<u32> {
    let mut sheet = vec![0; cell_count(side)];
    for (place, cell) in cells.iter().enumerate() {
        sheet[*cell] = place as u32 + 1;
    }
    sheet
}

// ---- by hand: the rows 76 to 82 of the definition's plates

/// For S 11.1.
#[test]
fn fewer_holes_come_first() {
    assert_eq!(answer(2, &[1, 0, 0, 0], &[0, 0, 1, 2]), Before);
    assert_eq!(answer(2, &[0, 0, 1, 2], &[1, 0, 0, 0]), After);
    // by one hole, though all else speaks against it
    for side in SIDES {
        let all: Vec<usize> = (0..cell_count(side)).collect();
        assert_eq!(answer(side, &burnt_in(side, &all[..1]), &burnt_in(side, &all[1..3])), Before);
        assert_eq!(answer(side, &burnt_in(side, &all), &burnt_in(side, &all[1..])), After);
        assert_eq!(answer(side, &burnt_in(side, &[]), &burnt_in(side, &all[all.len() - 1..])), Before);
    }
}

/// For S 11.1.
#[test]
fn of_as_many_holes_the_first_difference_decides() {
    assert_eq!(answer(2, &[0, 1, 0, 0], &[0, 0, 1, 0]), AfterAt(0, 1));
    assert_eq!(answer(2, &[0, 0, 1, 0], &[0, 1, 0, 0]), BeforeAt(0, 1));
    assert_eq!(answer(4, &burnt_in(4, &[11]), &burnt_in(4, &[9])), BeforeAt(2, 1));
    for side in SIDES {
        let (cells, last) = (cell_count(side), side - 1);
        // the last two cells alone
        let (left, right) = (burnt_in(side, &[0, cells - 1]), burnt_in(side, &[0, cells - 2]));
        assert_eq!(answer(side, &left, &right), BeforeAt(last, last - 1));
        assert_eq!(answer(side, &right, &left), AfterAt(last, last - 1));
        // the row goes before the column
        let (left, right) = (burnt_in(side, &[side as usize - 1]), burnt_in(side, &[side as usize]));
        assert_eq!(answer(side, &left, &right), AfterAt(0, last));
    }
}

/// For S 11.1.
#[test]
fn neither_serials_nor_what_lies_past_the_cells_count() {
    assert_eq!(answer(2, &[1, 0, 0, 2], &[9, 0, 0, u32::MAX]), Same);
    assert_eq!(answer(2, &[1, 2, 0, 0, 3], &[2, 1, 0, 0, 0]), Same);
    for side in SIDES {
        let cells = cell_count(side);
        let serials: Vec<u32> = (1..=cells as u32).collect();
        let others: Vec<u32> = (0..cells as u32).map(|place| u32::MAX - 65_536 * (place % 65_536)).collect();
        assert_eq!(answer(side, &serials, &others), Same);
        assert_eq!(answer(side, &[&serials[..], &[0, 7]].concat(), &[&others[..], &[7]].concat()), Same);
    }
}

/// For S 5.2.
#[test]
fn compare_refuses_by_hand() {
    let number = |side, left: &[u32], right: &[u32]| compare(side, left, right).map_err(Refusal::number);
    assert_eq!(number(3, &[], &[]), Err(1));
    assert_eq!(number(2, &[1, 0, 0], &[1, 0, 0, 0]), Err(4));
    assert_eq!(number(2, &[1, 0, 0, 0], &[1, 0, 0]), Err(4));
}

/// For S 11.2.
#[test]
fn five_plates() {
    assert_eq!(sorted(2, 5, &FIVE, 6), [3, 1, 0, 2, 4, 9]);
}

/// For S 11.2.
#[test]
fn few_plates() {
    assert_eq!(sorted(2, 0, &[], 0), []);
    assert_eq!(sorted(2, 0, &FIVE, 1), [9]);
    assert_eq!(sorted(2, 1, &FIVE, 1), [0]);
    assert_eq!(sorted(2, 2, &[1, 0, 0, 0, 2, 0, 0, 0], 2), [0, 1]);
    assert_eq!(sorted(2, 2, &FIVE, 2), [1, 0]);
}

/// For S 5.2.
#[test]
fn shelf_refuses_by_hand() {
    let number = |side, n, plates: usize, places: usize| {
        let mut list = vec![9; places];
        let answer = shelf(side, n, &vec![0; plates], &mut list);
        assert_eq!(list, vec![9; places]);
        answer.map_err(Refusal::number)
    };
    assert_eq!(number(3, 9, 0, 0), Err(1));
    assert_eq!(number(2, 2, 7, 1), Err(4));
    assert_eq!(number(2, 2, 8, 1), Err(8));
    assert_eq!(number(256, 65_536, 0, 0), Err(4));
    assert_eq!(number(256, u32::MAX, 9, 9), Err(4));
}

// ---- the laws of the order

/// All patterns of side 2, each with two sets of serials.
fn sheets() -> Vec<[u32; 4]> {
    let sheet = |pattern: u32, serials: [u32; 4]| [0, 1, 2, 3].map(|cell| (pattern >> cell & 1) * serials[cell]);
    (0..16).flat_map(|pattern| [sheet(pattern, [1, 2, 3, 4]), sheet(pattern, [1 << 31, 7, 1, 256])]).collect()
}

fn pattern(sheet: &[u32]) -> Vec<bool> {
    sheet.iter().map(|serial| *serial != 0).collect()
}

/// The answer for the same two plates in each other's place.
fn reversed(answer: Compared) -> Compared {
    match answer {
        Before => After,
        BeforeAt(row, column) => AfterAt(row, column),
        Same => Same,
        AfterAt(row, column) => BeforeAt(row, column),
        After => Before,
    }
}

/// For S 15.12.
#[test]
fn each_pair_has_one_answer_and_its_reverse() {
    for left in sheets() {
        for right in sheets() {
            let (forth, back) = (answer(2, &left, &right), answer(2, &right, &left));
            assert_eq!(back, reversed(forth));
            assert_eq!([forth.is_before(), forth == Same, back.is_before()].iter().filter(|one| **one).count(), 1);
            assert_eq!(forth == Same, pattern(&left) == pattern(&right));
        }
    }
}

/// For S 15.12.
#[test]
fn three_in_a_row_stand_in_order() {
    let mut chains = 0;
    for a in sheets() {
        for b in sheets() {
            for c in sheets() {
                let (ab, bc, ac) = (answer(2, &a, &b), answer(2, &b, &c), answer(2, &a, &c));
                if ab.is_before() && bc.is_before() {
                    assert!(ac.is_before());
                    chains += 1;
                }
                // the same plate in another's place changes nothing
                assert!(ab != Same || ac == bc);
                assert!(bc != Same || ab == ac);
            }
        }
    }
    // three of the 16 patterns, in their order, with either set of serials each
    assert_eq!(chains, 560 * 8);
}

// ---- another way

/// Numbers of the generator of samples, each below a count.
struct Draws {
    state: u32,
}

impl Draws {
    fn below(&mut self, count: u32) -> u32 {
        let mut greys = [0; 4];
        self.state = sample(self.state, 2, &mut greys).unwrap();
        u32::from_be_bytes(greys) % count
    }
}

/// What is compared, in the standard library's order: the number of holes, then the pattern, unburnt before burnt.
fn key(plate: &[u32]) -> (usize, Vec<bool>) {
    let pattern = pattern(plate);
    (pattern.iter().filter(|burnt| **burnt).count(), pattern)
}

/// The answer by keys: which comes first, and where the counts agree the first place at which the patterns differ.
fn by_keys(side: u32, left: &[u32], right: &[u32]) -> Compared {
    let ((holes, left), (others, right)) = (key(left), key(right));
    let place = left.iter().zip(&right).position(|(left, right)| left != right).unwrap_or(0) as u32;
    let (row, column) = (place / side, place % side);
    match (holes, &left).cmp(&(others, &right)) {
        std::cmp::Ordering::Less if holes < others => Before,
        std::cmp::Ordering::Less => BeforeAt(row, column),
        std::cmp::Ordering::Equal => Same,
        std::cmp::Ordering::Greater if holes > others => After,
        std::cmp::Ordering::Greater => AfterAt(row, column),
    }
}

/// The list by the standard library's stable sort.
fn by_sort(side: u32, plates: &[u32]) -> Vec<u32> {
    let keys: Vec<_> = plates.chunks(cell_count(side)).map(key).collect();
    let mut list: Vec<u32> = (0..keys.len() as u32).collect();
    list.sort_by(|left, right| keys[*left as usize].cmp(&keys[*right as usize]));
    list
}

/// A plate with any cells burnt, or one of the shelf with other serials, as it is or with two cells exchanged.
fn drawn_plate(draws: &mut Draws, cells: usize, shelf: &[u32]) -> Vec<u32> {
    let count = shelf.len() / cells;
    if count == 0 || draws.below(3) == 0 {
        let rare = 1 + draws.below(6);
        return (0..cells).map(|_| if draws.below(rare) == 0 { 1 + draws.below(u32::MAX) } else { 0 }).collect();
    }
    let first = draws.below(count as u32) as usize * cells;
    let mut plate: Vec<u32> = shelf[first..first + cells].iter().map(|serial| serial.min(&1) * 77).collect();
    if draws.below(2) == 0 {
        plate.swap(draws.below(cells as u32) as usize, draws.below(cells as u32) as usize);
    }
    plate
}

/// For S 15.12, S 11.2.
#[test]
fn the_same_order_another_way() {
    let mut draws = Draws { state: 1 };
    let mut equal = 0;
    for case in 0..3_000 {
        let side = [2, 2, 4, 8][case % 4];
        let (cells, n) = (cell_count(side), draws.below(40));
        let mut plates = Vec::new();
        for _ in 0..n {
            plates.extend(drawn_plate(&mut draws, cells, &plates));
        }
        let list = by_sort(side, &plates);
        assert_eq!(sorted(side, n, &plates, n as usize), list);
        for pair in list.windows(2) {
            let [left, right] = [pair[0], pair[1]].map(|number| &plates[number as usize * cells..][..cells]);
            let compared = answer(side, left, right);
            assert_eq!(compared, by_keys(side, left, right));
            assert_eq!(answer(side, right, left), by_keys(side, right, left));
            equal += u32::from(compared == Same);
        }
    }
    assert!(equal > 10_000);
}

/// For S 11.2.
#[test]
fn places_past_the_plates_stay() {
    for n in 0..=5 {
        for spare in [0, 1, 7] {
            let list = sorted(2, n, &FIVE, n as usize + spare);
            assert_eq!(list[..n as usize], by_sort(2, &FIVE[..4 * n as usize]));
            assert_eq!(list[n as usize..], vec![9; spare]);
        }
    }
}

/// The largest side, with plates of finished maps; one of them twice.
#[test]
fn plates_of_the_largest_side() {
    let names = ["flat-129", "flat-1", "random", "flat-1", "flat-0"];
    let mut plates = Vec::new();
    for name in names {
        let mut buffers = Buffers::new(256).unwrap();
        let progress = buffers.load(256, PLAIN, &maps::named(name, 256)).progress;
        buffers.advance(progress, 200);
        plates.extend(buffers.serials);
    }
    let list = sorted(256, 5, &plates, 5);
    assert_eq!(list, by_sort(256, &plates));
    assert!(list.windows(2).any(|pair| pair == [1, 3]));
    assert_eq!(list[0], 4);
}

// ---- comparisons counted

/// The comparisons that are made for a shelf of plates of side 4, which come out in the right order.
fn comparisons(plates: &[u32]) -> u32 {
    let n = plates.len() as u32 / 16;
    let plate = |number: u32| &plates[number as usize * 16..][..16];
    let mut count = 0;
    let list = in_order(n, |left, right| {
        count += 1;
        answer(4, plate(left), plate(right)).is_before()
    });
    assert_eq!(list, by_sort(4, plates));
    assert_eq!(list, sorted(4, n, plates, n as usize));
    count
}

/// The most comparisons that a search by halves among m plates can take is the number of binary digits of m.
fn most_comparisons(n: u32) -> u32 {
    (0..n).map(|before| u32::BITS - before.leading_zeros()).sum()
}

/// A shelf of plates of side 4, all different, in order.
fn different(count: u32) -> Vec<Vec<u32>> {
    let sheet = |number: u32| (0..16).map(|cell| ((number * 27) >> cell) & 1).collect();
    let mut plates: Vec<Vec<u32>> = (0..count).map(sheet).collect();
    plates.sort_by_key(|plate| key(plate));
    assert!(plates.windows(2).all(|pair| pair[0] != pair[1]));
    plates
}

/// At most n × (1 + log2 n), shown with the logarithm rounded down, which is less. Plates that stand in falling order
/// take the most that any can.
#[test]
fn few_comparisons() {
    let rising = different(400);
    let falling: Vec<Vec<u32>> = rising.iter().rev().cloned().collect();
    let mut draws = Draws { state: 2 };
    let random: Vec<Vec<u32>> = rising.iter().map(|_| rising[draws.below(400) as usize].clone()).collect();
    for n in 0..=400u32 {
        let limit = if n == 0 { 0 } else { n * (1 + n.ilog2()) };
        let shelves = [&rising, &falling, &random, &vec![rising[7].clone(); 400]];
        let counts = shelves.map(|plates| comparisons(&plates[..n as usize].concat()));
        assert!(counts.iter().all(|count| *count <= limit), "{n} plates, {counts:?} comparisons");
        assert_eq!(counts.iter().max(), Some(&most_comparisons(n)));
        assert_eq!(counts[1], most_comparisons(n));
        // equal plates go behind those before them just as rising ones do
        assert_eq!(counts[3], counts[0]);
    }
}
