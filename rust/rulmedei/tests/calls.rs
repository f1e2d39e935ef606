//! The calls on the plate P3, a map of side 2 with four greys of 128, on plain cloth and on ribbed, and each refusal
//! once; those of Quote Page and Sample in their order, and the one for the knit among the others. Samples of sides 2
//! and 4. And the renewal by itself. What has to do with greys above 240 is in lowering.rs.

use rulmedei::{
    advance, cells, codes, drill_list, levels, list_room, load, map_text, page_length, place, pyramid_length,
    quote_page, renew, sample, tally, Advanced, Progress, Refusal, PLAIN, RIBBED,
};

const GREYS: [u8; 4] = [128; 4];
const LIST: &[u8] = b"2,2\n1,0,0\n2,1,1\n";
const PAGE: &[u8] = b"  0   0      128     1     1
  0   1      128     0     1
  1   0      128     0     1
  1   1      128     1     1
";

/// Buffers one place longer than needed, with 9s in them.
struct Sheet {
    pyramid: [i64; 6],
    serials: [u32; 5],
    order: [u32; 5],
}

impl Sheet {
    fn new() -> Sheet {
        Sheet { pyramid: [9; 6], serials: [9; 5], order: [9; 5] }
    }

    fn load(&mut self, knit: u32) -> Result<Progress, Refusal> {
        load(2, knit, &GREYS, &mut self.pyramid, &mut self.serials, &mut self.order)
    }

    fn advance(&mut self, progress: Progress, budget: u32) -> Result<Advanced, Refusal> {
        advance(progress, budget, &mut self.pyramid, &mut self.serials, &mut self.order)
    }

    fn list(&self, progress: Progress, out: &mut [u8]) -> Result<usize, Refusal> {
        drill_list(progress, &self.pyramid, &self.serials, &self.order, out)
    }
}

fn record(dots: u32) -> Progress {
    Progress { side: 2, dots, knit: PLAIN }
}

/// The example with its two holes made.
fn finished() -> Sheet {
    let mut sheet = Sheet::new();
    let start = sheet.load(PLAIN).unwrap();
    assert_eq!(sheet.advance(start, u32::MAX), Ok(Advanced { progress: record(2), made: 2, finished: true }));
    sheet
}

/// For S 7.1, S 16.3.
#[test]
fn load_fills_the_buffers() {
    for knit in [PLAIN, RIBBED] {
        let mut sheet = Sheet::new();
        assert_eq!(sheet.load(knit), Ok(Progress { knit, ..record(0) }));
        assert_eq!(sheet.pyramid, [131072, 32768, 32768, 32768, 32768, 9]);
        assert_eq!(sheet.serials, [0, 0, 0, 0, 9]);
        assert_eq!(sheet.order, [0, 0, 0, 0, 9]);
    }
}

/// For S 7.3, S 17.3.
#[test]
fn advance_says_more_until_it_is_finished() {
    let mut sheet = Sheet::new();
    let start = sheet.load(PLAIN).unwrap();
    let first = sheet.advance(start, 1).unwrap();
    assert_eq!(first, Advanced { progress: record(1), made: 1, finished: false });
    let second = sheet.advance(first.progress, 1).unwrap();
    assert_eq!(second, Advanced { progress: record(2), made: 1, finished: true });
    assert_eq!(sheet.advance(second.progress, 1), Ok(Advanced { progress: record(2), made: 0, finished: true }));
    assert_eq!(sheet.serials, [1, 0, 0, 2, 9]);
    assert_eq!(sheet.order, [0, 3, 0, 0, 9]);
}

/// The same on ribbed cloth: a half of what the first hole makes too much is taken from either cell beside it (S 3.5).
#[test]
fn advance_on_ribbed_cloth() {
    let mut sheet = Sheet::new();
    let start = sheet.load(RIBBED).unwrap();
    let ribbed = |dots| Progress { knit: RIBBED, ..record(dots) };
    assert_eq!(sheet.advance(start, 1), Ok(Advanced { progress: ribbed(1), made: 1, finished: false }));
    assert_eq!(sheet.pyramid, [65_792, 0, 16_512, 16_512, 32_768, 9]);
    assert_eq!(sheet.advance(ribbed(1), 9), Ok(Advanced { progress: ribbed(2), made: 1, finished: true }));
    assert_eq!(sheet.pyramid, [512, 0, 256, 256, 0, 9]);
    let mut out = [9; 20];
    let length = sheet.list(ribbed(2), &mut out).unwrap();
    assert_eq!(&out[..length], LIST);
}

/// Inside a map of side 4, on its side and in its corner: a fourth, a third and a half of 65,280 - 32,768 (S 3.5).
#[test]
fn ribbed_cells_by_place() {
    for (cell, debts) in [
        (5, [0, -8_128, 0, 0, -8_128, 0, -8_128, 0, 0, -8_128, 0, 0, 0, 0, 0, 0]),
        (1, [-10_837, 0, -10_837, 0, 0, -10_838, 0, 0, 0, 0, 0, 0, 0, 0, 0, 0]),
        (15, [0, 0, 0, 0, 0, 0, 0, 0, 0, 0, 0, -16_256, 0, 0, -16_256, 0]),
    ] {
        let mut greys = [0; 16];
        greys[cell] = 128;
        let (mut pyramid, mut serials, mut order) = ([0; 21], [0; 16], [0; 16]);
        let start = load(4, RIBBED, &greys, &mut pyramid, &mut serials, &mut order).unwrap();
        let end = advance(start, u32::MAX, &mut pyramid, &mut serials, &mut order).unwrap();
        assert_eq!((end.made, end.finished), (1, true));
        for (cell, debt) in debts.into_iter().enumerate() {
            assert_eq!(pyramid[place(2, cell / 4, cell % 4)], debt);
        }
    }
}

/// For S 9.3.
#[test]
fn drill_list_writes_the_list() {
    let mut out = [9; 20];
    let length = finished().list(record(2), &mut out).unwrap();
    assert_eq!(&out[..length], LIST);
    assert!(out[length..].iter().all(|byte| *byte == 9));
}

/// For S 8.1.
#[test]
fn tally_counts_holes() {
    let sheet = finished();
    assert_eq!(tally(2, &sheet.serials, 0, 0, 0), Ok(2));
    assert_eq!(tally(2, &sheet.serials, 1, 0, 0), Ok(1));
    assert_eq!(tally(2, &sheet.serials, 1, 0, 1), Ok(0));
}

/// For S 8.2.
#[test]
fn levels_sums_squares() {
    let whole = 2 * 128 - 2 * 127;
    let of_cells = 2 * 128 * 128 + 2 * 127 * 127;
    assert_eq!(levels(2, &GREYS, &finished().serials), Ok([whole * whole, of_cells, 0, 0, 0, 0, 0, 0, 0]));
}

/// For S 9.1.
#[test]
fn map_text_reads_a_map() {
    let mut greys = [9; 5];
    assert_eq!(map_text(b"2\n1,20\n240,0\n", &mut greys), Ok(2));
    assert_eq!(greys, [1, 20, 240, 0, 9]);
}

/// For S 8.4.
#[test]
fn quote_page_writes_the_page() {
    let sheet = finished();
    let mut out = [9; 120];
    assert_eq!(quote_page(2, &GREYS, &sheet.serials, 0, &mut out), Ok(29));
    assert_eq!(&out[..29], b"  0   0      512     2     4\n");
    assert!(out[29..].iter().all(|byte| *byte == 9));
    assert_eq!(quote_page(2, &GREYS, &sheet.serials, 1, &mut out), Ok(116));
    assert_eq!(&out[..116], PAGE);
    assert!(out[116..].iter().all(|byte| *byte == 9));
}

/// For S 5.2.
#[test]
fn quote_page_refuses_in_order() {
    let sheet = finished();
    let mut out = [9; 115];
    let mut number = |side, greys: &[u8], serials: &[u32], level, length: usize| {
        quote_page(side, greys, serials, level, &mut out[..length]).map_err(Refusal::number)
    };
    assert_eq!(number(3, &[], &[], 2, 0), Err(1));
    assert_eq!(number(2, &GREYS[1..], &[], 2, 0), Err(2));
    assert_eq!(number(2, &GREYS, &sheet.serials[2..], 2, 0), Err(4));
    assert_eq!(number(2, &GREYS, &sheet.serials, 2, 0), Err(6));
    assert_eq!(number(2, &GREYS, &sheet.serials, u32::MAX, 115), Err(6));
    assert_eq!(number(2, &GREYS, &sheet.serials, 1, 115), Err(8));
    assert_eq!(number(2, &GREYS, &sheet.serials, 0, 28), Err(8));
    assert_eq!(out, [9; 115]);
}

/// For S 12.1.
#[test]
fn sample_fills_the_greys() {
    let mut greys = [9; 5];
    assert_eq!(sample(0, 2, &mut greys), Ok(2_868_466_484));
    assert_eq!(greys, [60, 71, 209, 170, 9]);
    assert_eq!(sample(u32::MAX, 2, &mut greys), Ok(2_709_482_403));
    assert_eq!(greys, [60, 48, 34, 161, 9]);
}

/// For S 15.13.
#[test]
fn sample_goes_on_from_the_state_reached() {
    let mut whole = [9; 16];
    let end = sample(1, 4, &mut whole).unwrap();
    let mut state = 1;
    for quarter in whole.chunks(4) {
        let mut greys = [9; 4];
        state = sample(state, 2, &mut greys).unwrap();
        assert_eq!(greys, quarter);
    }
    assert_eq!(state, end);
}

/// For S 5.2.
#[test]
fn sample_refuses_in_order() {
    let mut greys = [9; 15];
    let mut number = |side, length: usize| sample(1, side, &mut greys[..length]).map_err(Refusal::number);
    for no_side in [0, 1, 3, 512, u32::MAX] {
        assert_eq!(number(no_side, 0), Err(1));
        assert_eq!(number(no_side, 15), Err(1));
    }
    assert_eq!(number(2, 0), Err(2));
    assert_eq!(number(2, 3), Err(2));
    assert_eq!(number(4, 15), Err(2));
    assert_eq!(greys, [9; 15]);
}

/// For S 8.4.
#[test]
fn page_lengths() {
    let levels = [0, 1, 2, 3, 4, 5, 6, 7, 8];
    assert_eq!(levels.map(page_length), [29, 116, 464, 1_856, 7_424, 29_696, 118_784, 475_136, 1_900_544]);
    // 29 × 4^29 is the last that fits 64 bits
    assert_eq!([29, 30, 31, 32, u32::MAX].map(page_length), [29 << 58, usize::MAX, usize::MAX, usize::MAX, usize::MAX]);
}

/// For S 2.5, S 16.3.
#[test]
fn lengths_are_the_header_s() {
    let sides = [2, 4, 8, 16, 32, 64, 128, 256];
    assert_eq!(sides.map(cells), [4, 16, 64, 256, 1024, 4096, 16384, 65536]);
    assert_eq!(sides.map(pyramid_length), [5, 21, 85, 341, 1365, 5461, 21845, 87381]);
    assert_eq!(sides.map(list_room), [70, 238, 910, 3598, 14350, 57358, 229390, 917518]);
}

/// For S 5.1, S 16.3.
#[test]
fn each_refusal() {
    let sheet = finished();
    let mut out = [9; 15];
    assert_eq!(load(3, PLAIN, &GREYS, &mut [], &mut [], &mut []), Err(Refusal::SideUnknown));
    assert_eq!(load(2, PLAIN, &GREYS[1..], &mut [], &mut [], &mut []), Err(Refusal::GreysShort));
    assert_eq!(load(2, PLAIN, &GREYS, &mut [0; 4], &mut [], &mut []), Err(Refusal::PyramidShort));
    assert_eq!(load(2, PLAIN, &GREYS, &mut [0; 5], &mut [0; 4], &mut [0; 3]), Err(Refusal::SheetShort));
    assert_eq!(sheet.list(record(1), &mut out), Err(Refusal::SheetUnsound));
    assert_eq!(tally(2, &sheet.serials, 1, 0, 2), Err(Refusal::BlockUnknown));
    assert_eq!(map_text(b"2\n1,20\n256,0\n", &mut [0; 4]), Err(Refusal::TextMalformed));
    assert_eq!(sheet.list(record(2), &mut out), Err(Refusal::OutputShort));
    assert_eq!(sheet.list(Progress { knit: 2, ..record(2) }, &mut out), Err(Refusal::KnitUnknown));
    assert_eq!(map_text(b"2\n1,20\n241,0\n", &mut [0; 4]), Err(Refusal::GreyHigh));
    assert_eq!(out, [9; 15]);
}

/// Numbers that are no knit: after the side, and before all lengths, the sheet and the output (S 5.2).
#[test]
fn the_knit_is_looked_at_directly_after_the_side() {
    for knit in [2, 3, 255, 256, 1 << 31, u32::MAX] {
        assert_eq!(Sheet::new().load(knit), Err(Refusal::KnitUnknown));
        for (side, number) in [(3, 1), (2, 11), (4, 11)] {
            let nothing = Progress { side: 0, dots: 0, knit: 0 };
            assert_eq!(codes::load(side, knit, &[], &mut [], &mut [], &mut []), (number, nothing));
            assert_eq!(codes::load(side, knit, &GREYS, &mut [0; 5], &mut [0; 4], &mut [0; 4]), (number, nothing));
            let mut sheet = finished();
            let serials = sheet.serials;
            for dots in [2, 1, u32::MAX] {
                let given = Progress { side, dots, knit };
                let answer = codes::advance(given, 1, &mut sheet.pyramid, &mut sheet.serials, &mut sheet.order);
                assert_eq!(answer, (number, given, 0));
                assert_eq!(codes::advance(given, 1, &mut [], &mut [], &mut []), (number, given, 0));
                assert_eq!(sheet.list(given, &mut [0; 20]).map_err(Refusal::number), Err(number));
                assert_eq!(codes::drill_list(given, &[], &[], &[], &mut []), (number, 0));
            }
            assert_eq!(sheet.serials, serials);
        }
    }
}

/// For S 7.4.
#[test]
fn a_refused_advance_changes_nothing() {
    let mut sheet = finished();
    let serials = sheet.serials;
    assert_eq!(sheet.advance(record(1), 1).map_err(Refusal::number), Err(5));
    assert_eq!(sheet.serials, serials);
}

/// Side 4: the top, the four sums, the sixteen cells, and a place past them. Each sum is wrong.
fn wrong_sums() -> [i64; 22] {
    [-1, -2, -3, -4, -5, 1, 2, 3, 4, 5, 6, 7, 8, 9, 10, 11, 12, 13, 14, 15, 16, i64::MAX]
}

/// For S 12.3.
#[test]
fn renew_makes_the_sums_over_a_cell_and_its_neighbours() {
    // one sum lies over a corner and its neighbours; two lie over a cell of the rim and its, all four over one inside
    // and its; the four below a sum lie side by side
    for (row, column, sums) in [
        (0, 0, [10 - 3 - 4 - 5, 10, -3, -4, -5]),
        (3, 3, [-2 - 3 - 4 + 58, -2, -3, -4, 58]),
        (0, 2, [10 + 26 - 4 - 5, 10, 26, -4, -5]),
        (2, 1, [136, 10, 26, 42, 58]),
    ] {
        let mut pyramid = wrong_sums();
        assert!(renew(4, row, column, &mut pyramid));
        assert_eq!(pyramid[..5], sums);
        assert_eq!(pyramid[5..], wrong_sums()[5..]);
    }
}

/// For S 12.3.
#[test]
fn renew_changes_nothing_outside_its_promise() {
    let refused = |side, row, column, before: &[i64]| {
        let mut pyramid = before.to_vec();
        !renew(side, row, column, &mut pyramid) && pyramid == before
    };
    let wrong = wrong_sums();
    assert!(refused(3, 0, 0, &wrong));
    assert!(refused(4, 0, 0, &wrong[..20]));
    assert!(refused(4, 4, 0, &wrong));
    assert!(refused(4, 0, u32::MAX, &wrong));
    for (place, entry) in [(0, 1 << 40), (20, -1 << 40)] {
        let mut pyramid = wrong;
        pyramid[place] = entry;
        assert!(!refused(4, 0, 0, &pyramid));
        pyramid[place] += entry.signum();
        assert!(refused(4, 0, 0, &pyramid));
    }
}
