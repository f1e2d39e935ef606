//! The plates to work by hand, P1 to P12; and turns, stages, quote pages and ribbed plates worked by hand too. Where no
//! knit is named, the cloth is plain.

use reference::*;

const P3_GREYS: [u8; 4] = [128; 4];

/// A fresh sheet: buffers and record after Load.
fn loaded(side: u32, greys: &[u8]) -> (Buffers, Progress) {
    loaded_on(PLAIN, side, greys)
}

fn loaded_on(knit: u32, side: u32, greys: &[u8]) -> (Buffers, Progress) {
    let mut buffers = Buffers::new(side).unwrap();
    let answer = buffers.load(side, knit, greys);
    assert_eq!((answer.progress, answer.status), (Progress { side, dots: 0, knit }, Ok(())));
    (buffers, answer.progress)
}

/// A sheet run to its end.
fn finished(side: u32, greys: &[u8]) -> (Buffers, Progress) {
    finished_on(PLAIN, side, greys)
}

fn finished_on(knit: u32, side: u32, greys: &[u8]) -> (Buffers, Progress) {
    let (mut buffers, progress) = loaded_on(knit, side, greys);
    let answer = buffers.advance(progress, u32::MAX);
    assert_eq!(answer.status, Ok(Ended::Finished));
    assert_eq!(answer.made, answer.progress.dots);
    (buffers, answer.progress)
}

/// The shares of an error around a cell, in their order.
fn shares_at(knit: u32, side: u32, row: usize, column: usize, error: i64) -> Vec<i64> {
    shares(error, &weights_of(weights(knit).unwrap(), &neighbours_in_turn(side, row, column)))
}

/// For S 17.1.
#[test]
fn p1_no_grey_no_dot() {
    let (buffers, progress) = finished(2, &[0; 4]);
    assert_eq!(progress.dots, 0);
    assert_eq!(buffers, Buffers::new(2).unwrap());
}

/// Of the missing 65,280 - 61,440 = 3,840 the diagonal cell bears a fifth, 768, and with the next one three fifths,
/// 2,304. Of the missing 4,608 after that, these are 921 and 2,764; of 7,219 they are 1,443 and 4,331; of 8,663 they
/// are 1,732 and 5,197 (S 17.2).
#[test]
fn p2_all_cells() {
    let (mut buffers, mut progress) = loaded(2, &[240; 4]);
    for debts in [
        [180_480, 0, 59_904, 59_904, 60_672],
        [115_200, -921, 58_061, 58_060, 0],
        [49_920, -3_809, 0, 56_617, -2_888],
        [-15_360, -7_274, -1_732, 0, -6_354],
    ] {
        progress = buffers.advance(progress, 1).progress;
        assert_eq!(buffers.pyramid, debts);
    }
    assert_eq!(buffers.advance(progress, 1).status, Ok(Ended::Finished));
    assert_eq!(progress.dots, 4);
    assert_eq!(buffers.order, [0, 3, 1, 2]);
    assert_eq!(buffers.serials, [1, 3, 4, 2]);
}

/// A sheet of P2 with its own greys, 255, that was loaded before they were refused: four holes that lack nothing
/// (S 7.5).
#[test]
fn p2_loaded_before() {
    let mut buffers = Buffers::older(2, &[255; 4]).unwrap();
    let answer = buffers.advance(Progress { side: 2, dots: 0, knit: PLAIN }, 9);
    assert_eq!((answer.made, answer.status), (4, Ok(Ended::Finished)));
    assert_eq!(buffers.order, [0, 3, 1, 2]);
    assert_eq!(buffers.pyramid, [0; 5]);
}

/// Worked by hand: the second hole takes the later of two equal cells (S 3.3).
#[test]
fn turns_among_equals() {
    let (mut buffers, progress) = loaded(2, &[240, 200, 200, 0]);
    let first = buffers.advance(progress, 1);
    assert_eq!(buffers.pyramid[1..], [0, 49_664, 49_664, -768]);
    let second = buffers.advance(first.progress, 1);
    assert_eq!(buffers.pyramid[1..], [-6_246, 46_541, 0, -7_015]);
    let third = buffers.advance(second.progress, 9);
    assert_eq!(buffers.pyramid, [-32_000, -13_742, 0, -3_747, -14_511]);
    assert_eq!((third.made, third.status), (1, Ok(Ended::Finished)));
    assert_eq!(buffers.order, [0, 2, 1, 0]);
}

/// Equal quarters above the cells take turns too (S 3.3).
#[test]
fn turns_among_equal_quarters() {
    let mut greys = [0; 16];
    for cell in [0, 3, 12, 15] {
        greys[cell] = 240;
    }
    let (buffers, _) = finished(4, &greys);
    assert_eq!(buffers.order[..4], [0, 15, 3, 12]);
}

/// Of the missing 32,512 the diagonal cell bears a fifth, 6,502, and with the next one three fifths, 19,507. Of the
/// missing 39,014 after that, these are 7,802 and 23,408 (S 17.3).
#[test]
fn p3_two_dots() {
    let (mut buffers, progress) = loaded(2, &P3_GREYS);
    let first = buffers.advance(progress, 1);
    assert_eq!(buffers.pyramid[1..], [0, 19_763, 19_763, 26_266]);
    let second = buffers.advance(first.progress, 1);
    assert_eq!(buffers.pyramid, [512, -7_802, 4_157, 4_157, 0]);
    assert_eq!(second.status, Ok(Ended::Finished));
    assert_eq!(buffers.order, [0, 3, 0, 0]);
}

/// For S 17.3.
#[test]
fn p4_budgets() {
    let (mut buffers, mut progress) = loaded(2, &P3_GREYS);
    let expected = [(0, 0, Ended::More), (1, 1, Ended::More), (1, 1, Ended::Finished)];
    for (budget, made, ended) in expected {
        let answer = buffers.advance(progress, budget);
        assert_eq!((answer.made, answer.status), (made, Ok(ended)));
        progress = answer.progress;
    }
    assert_eq!(progress, Progress { side: 2, dots: 2, knit: PLAIN });
}

/// For S 17.1.
#[test]
fn p5_less_than_half_a_dot() {
    let (_, progress) = finished(2, &[127, 0, 0, 0]);
    assert_eq!(progress.dots, 0);
}

/// For S 17.4.
#[test]
fn p6_half_a_dot() {
    let (buffers, progress) = finished(2, &[128, 0, 0, 0]);
    assert_eq!(progress.dots, 1);
    assert_eq!(buffers.pyramid[1..], [0, -13_005, -13_005, -6_502]);
}

/// The running sums of the weights are 1, 2, 3, 4, 6, 8, 10, 12 of 12 (S 17.5).
#[test]
fn p7_shares_inside() {
    assert_eq!(shares_at(PLAIN, 4, 1, 1, 13), [1, 1, 1, 1, 2, 2, 2, 3]);
}

/// 1, 2, 4, 6, 8 of 8 (S 17.5).
#[test]
fn p8_shares_on_the_top_side() {
    assert_eq!(shares_at(PLAIN, 4, 0, 1, 7), [0, 1, 2, 2, 2]);
}

/// 1, 3, 5 of 5 (S 17.5).
#[test]
fn p9_shares_in_the_top_left_corner() {
    assert_eq!(shares_at(PLAIN, 2, 0, 0, 4), [0, 2, 2]);
}

/// Worked by hand: what each cell around cell (1, 1) bears of a small error. No two cells bear the same of all of these
/// (S 3.6).
#[test]
fn shares_by_place() {
    let by_row = |error: i64| {
        let mut cells = [0; 16];
        let near = neighbours_in_turn(4, 1, 1);
        for (neighbour, share) in near.iter().zip(shares_at(PLAIN, 4, 1, 1, error)) {
            cells[neighbour.row * 4 + neighbour.column] = share;
        }
        [cells[0], cells[1], cells[2], cells[4], cells[6], cells[8], cells[9], cells[10]]
    };
    // above left, up, above right; left, right; below left, down, below right
    assert_eq!(by_row(1), [0, 0, 0, 0, 0, 0, 1, 0]);
    assert_eq!(by_row(2), [0, 1, 0, 0, 0, 0, 1, 0]);
    assert_eq!(by_row(3), [0, 0, 0, 1, 0, 0, 1, 1]);
    assert_eq!(by_row(4), [0, 1, 0, 0, 1, 1, 1, 0]);
    assert_eq!(by_row(6), [0, 1, 1, 1, 1, 0, 1, 1]);
    assert_eq!(by_row(12), [1, 2, 1, 2, 2, 1, 2, 1]);
}

/// One dark cell inside: of the missing 32,512 = 12 × 2,709 + 4 the four odd units go below left, up, right and down
/// (S 3.6).
#[test]
fn plain_errors_by_place() {
    let mut greys = [0; 16];
    greys[5] = 128;
    let row = |numbers: [i64; 4]| numbers.to_vec();
    let left = [row([-2_709, -5_419, -2_709, 0]), row([-5_418, 0, -5_419, 0]), row([-2_710, -5_419, -2_709, 0])];
    assert_eq!(to_rows(4, &finished(4, &greys).0.pyramid)[5..17], left.concat());
}

/// For S 17.6.
#[test]
fn p10_dots_of_a_grey_sum() {
    for (greys, dots) in [([240, 142, 0, 0], 1), ([240, 143, 0, 0], 2)] {
        assert_eq!(finished(2, &greys).1.dots, dots);
    }
    // 15 × 20 + 82 = 382
    for (last, dots) in [(82, 1), (83, 2)] {
        let mut greys = [20; 16];
        greys[15] = last;
        assert_eq!(finished(4, &greys).1.dots, dots);
    }
}

/// For S 17.6.
#[test]
fn p11_levels() {
    let (buffers, _) = finished(2, &P3_GREYS);
    let sums = levels(2, &P3_GREYS, &buffers.serials);
    assert_eq!(sums, Ok([4, 65_026, 0, 0, 0, 0, 0, 0, 0]));
}

/// For S 17.6.
#[test]
fn p12_wrong_top() {
    let (mut buffers, progress) = loaded(2, &P3_GREYS);
    buffers.pyramid[0] += 1;
    let status = buffers.advance(progress, u32::MAX).status;
    assert_eq!(status.map_err(Refusal::number), Err(5));
    let list = buffers.drill_list(progress, &mut [0; 100]);
    assert_eq!(list.map_err(Refusal::number), Err(5));
}

/// P3 kept before its first hole, after it and at its end, and each stage returned to, from a later one and from an
/// earlier one (S 10.2).
#[test]
fn stages_of_p3() {
    let (mut buffers, start) = loaded(2, &P3_GREYS);
    let mut checkpoints = keep(start, Checkpoints::default(), 1).checkpoints;
    let first = buffers.advance(start, 1).progress;
    checkpoints = keep(first, checkpoints, 8).checkpoints;
    let second = buffers.advance(first, 1).progress;
    checkpoints = keep(second, checkpoints, 4).checkpoints;
    assert_eq!(checkpoints.kept, [1, 0, 0, 3, 0, 0, 0, 2]);

    let stages = [
        (1, 0, [131_072, 32_768, 32_768, 32_768, 32_768], [0, 0, 0, 0], [0, 0, 0, 0]),
        (8, 1, [65_792, 0, 19_763, 19_763, 26_266], [1, 0, 0, 0], [0, 0, 0, 0]),
        (4, 2, [512, -7_802, 4_157, 4_157, 0], [1, 0, 0, 2], [0, 3, 0, 0]),
    ];
    let mut progress = second;
    for stage in [0, 1, 2, 1, 0, 2, 0, 0] {
        let (name, dots, pyramid, serials, order) = stages[stage];
        let answer = buffers.restore(progress, checkpoints, name, &P3_GREYS);
        progress = Progress { side: 2, dots, knit: PLAIN };
        assert_eq!(answer, CheckpointAnswer { progress, checkpoints, status: Ok(()) });
        assert_eq!(buffers.pyramid, pyramid);
        assert_eq!(buffers.serials, serials);
        assert_eq!(buffers.order, order);
    }
}

/// Ribbed shares, by running sums as on plain cloth; D is 4, 3 and 2. Inside, the sums 0, 0, 0, 0, 1, 2, 3, 4 of the
/// weights give 0, 0, 0, 0, 3, 6, 9, 13 of an error of 13. Below 0 the floor goes down too: a fourth of -1 is -1
/// (S 3.7).
#[test]
fn ribbed_shares() {
    assert_eq!(shares_at(RIBBED, 4, 1, 1, 13), [0, 0, 0, 0, 3, 3, 3, 4]);
    assert_eq!(shares_at(RIBBED, 4, 0, 1, 7), [0, 0, 2, 2, 3]);
    assert_eq!(shares_at(RIBBED, 4, 2, 3, 7), [0, 0, 2, 2, 3]);
    assert_eq!(shares_at(RIBBED, 2, 0, 0, 5), [0, 2, 3]);
    assert_eq!(shares_at(RIBBED, 2, 1, 1, 5), [0, 2, 3]);
    assert_eq!(shares_at(RIBBED, 4, 1, 1, -1), [0, 0, 0, 0, -1, 0, 0, 0]);
}

/// The greys of P3 on ribbed cloth: of the missing 32,512 each straight neighbour bears a half, and the diagonal one,
/// which then is the largest, nothing (S 3.5).
#[test]
fn ribbed_p3() {
    let (mut buffers, progress) = loaded_on(RIBBED, 2, &P3_GREYS);
    let first = buffers.advance(progress, 1);
    assert_eq!(buffers.pyramid, [65_792, 0, 16_512, 16_512, 32_768]);
    assert_eq!(first.progress, Progress { side: 2, dots: 1, knit: RIBBED });
    let second = buffers.advance(first.progress, 1);
    assert_eq!(buffers.pyramid, [512, 0, 256, 256, 0]);
    assert_eq!((second.made, second.status), (1, Ok(Ended::Finished)));
    assert_eq!(second.progress, Progress { side: 2, dots: 2, knit: RIBBED });
    assert_eq!((buffers.order, buffers.serials), (vec![0, 3, 0, 0], vec![1, 0, 0, 2]));
}

/// The greys of P2, P6 and P10 on ribbed cloth.
#[test]
fn ribbed_small_plates() {
    let (buffers, progress) = finished_on(RIBBED, 2, &[240; 4]);
    assert_eq!((progress.dots, buffers.order), (4, vec![0, 3, 1, 2]));
    assert_eq!(buffers.pyramid, [-15_360, -7_680, 0, 0, -7_680]);
    let (buffers, progress) = finished_on(RIBBED, 2, &[128, 0, 0, 0]);
    assert_eq!((progress.dots, buffers.pyramid), (1, vec![-32_512, 0, -16_256, -16_256, 0]));
    for (greys, dots) in [([240, 142, 0, 0], 1), ([240, 143, 0, 0], 2)] {
        assert_eq!(finished_on(RIBBED, 2, &greys).1.dots, dots);
    }
}

/// One dark cell inside: the whole error goes to the four straight neighbours, a fourth each; on a side a third each,
/// in a corner a half each. Of 65,280 - 32,768 = 32,512 these are 8,128; 10,837, 10,837 and 10,838; 16,256 (S 3.5).
#[test]
fn ribbed_errors_by_place() {
    let after = |cell: usize| {
        let mut greys = [0; 16];
        greys[cell] = 128;
        to_rows(4, &finished_on(RIBBED, 4, &greys).0.pyramid)[5..].to_vec()
    };
    let row = |numbers: [i64; 4]| numbers.to_vec();
    let inside = [row([0, -8_128, 0, 0]), row([-8_128, 0, -8_128, 0]), row([0, -8_128, 0, 0]), row([0; 4])];
    assert_eq!(after(5), inside.concat());
    let side = [row([-10_837, 0, -10_837, 0]), row([0, -10_838, 0, 0]), row([0; 4]), row([0; 4])];
    assert_eq!(after(1), side.concat());
    let corner = [row([0; 4]), row([0; 4]), row([0, 0, 0, -16_256]), row([0, 0, -16_256, 0])];
    assert_eq!(after(15), corner.concat());
}

/// The knit changed in the record between two calls: P3's first dot plain, its second ribbed. Of the missing 65,280 -
/// 26,266 = 39,014 the cells above and to the left bear 19,507 each (S 7.3, S 2.8).
#[test]
fn p3_plain_then_ribbed() {
    let (mut buffers, progress) = loaded(2, &P3_GREYS);
    let first = buffers.advance(progress, 1).progress;
    let second = buffers.advance(Progress { knit: RIBBED, ..first }, 1);
    assert_eq!(buffers.pyramid, [512, 0, 256, 256, 0]);
    assert_eq!(second.progress, Progress { side: 2, dots: 2, knit: RIBBED });
}

/// For S 14.1.
#[test]
fn the_program_on_p3() {
    assert_eq!(plate(b"2\n128,128\n128,128\n"), b"2,2\n1,0,0\n2,1,1\n");
}

/// The page of a level, for a sheet with these serials.
fn page(side: u32, greys: &[u8], serials: &[u32], level: u32) -> String {
    let mut out = vec![b'#'; 29 * 4usize.pow(level)];
    assert_eq!(quote_page(side, greys, serials, level, &mut out), Ok(out.len()));
    String::from_utf8(out).unwrap()
}

/// The page of a finished map.
fn finished_page(side: u32, greys: &[u8], level: u32) -> String {
    page(side, greys, &finished(side, greys).0.serials, level)
}

/// 3 × 512 + 764 + 1,020 × 2 = 4,340 is 5 × 765 + 515, but there are 4 cells; 3 × 128 + 764 + 1,020 = 2,168 is
/// 2 × 765 + 638, but there is one (S 8.4).
#[test]
fn the_page_of_p3() {
    let lines = [
        "  0   0      128     1     1\n",
        "  0   1      128     0     1\n",
        "  1   0      128     0     1\n",
        "  1   1      128     1     1\n",
    ];
    assert_eq!(finished_page(2, &P3_GREYS, 0), "  0   0      512     2     4\n");
    assert_eq!(finished_page(2, &P3_GREYS, 1), lines.concat());
}

#[test]
fn the_page_of_p3_before_its_end() {
    let (mut buffers, progress) = loaded(2, &P3_GREYS);
    assert_eq!(page(2, &P3_GREYS, &buffers.serials, 0), "  0   0      512     0     4\n");
    buffers.advance(progress, 1);
    assert_eq!(page(2, &P3_GREYS, &buffers.serials, 0), "  0   0      512     1     4\n");
}

/// 3 × 85 + 764 + 1,020 × 2 = 3,059 is one less than 4 × 765; with a grey sum of 86 it is 3,062. With 0 it is 2,804,
/// which is 3 × 765 + 509 (S 8.3).
#[test]
fn the_cap_is_rounded_down() {
    assert_eq!(finished_page(2, &[85, 0, 0, 0], 0), "  0   0       85     0     3\n");
    assert_eq!(finished_page(2, &[20, 30, 30, 5], 0), "  0   0       85     0     3\n");
    assert_eq!(finished_page(2, &[20, 30, 30, 6], 0), "  0   0       86     0     4\n");
    assert_eq!(finished_page(2, &[0; 4], 0), "  0   0        0     0     3\n");
}

/// Caps of blocks that are 4 and 2 cells wide, each block with a grey sum of its own. Side 4, level 0, grey sum 190:
/// 3 × 190 + 764 + 1,020 × 4 = 5,414 is 7 × 765 + 59. Level 1, grey sums 10, 50, 90 and 40: 2,834, 2,954 and 2,924
/// are below 4 × 765 = 3,060, and 3,074 isn't (S 8.4, S 8.3).
#[test]
fn the_page_of_four_blocks() {
    let greys = [1, 2, 11, 12, 3, 4, 13, 14, 21, 22, 10, 10, 23, 24, 10, 10];
    let serials = [0, 0, 0, 0, 0, 0, 0, 2, 9, 0, 70_000, 1, 0, u32::MAX, 1, 0];
    let lines = [
        "  0   0       10     0     3\n",
        "  0   1       50     1     3\n",
        "  1   0       90     2     4\n",
        "  1   1       40     3     3\n",
    ];
    assert_eq!(page(4, &greys, &serials, 0), "  0   0      190     6     7\n");
    assert_eq!(page(4, &greys, &serials, 1), lines.concat());
}

/// The serials may be anything, and the page then tells of more holes than the cap allows: 764 + 1,020 × 8 = 8,924 is
/// 11 × 765 + 509 (S 8.4).
#[test]
fn the_page_of_a_sheet_that_no_load_made() {
    assert_eq!(page(8, &[0; 64], &[u32::MAX; 64], 0), "  0   0        0    64    11\n");
    assert_eq!(page(8, &[0; 64], &[1 << 16; 64], 2).lines().next(), Some("  0   0        0     4     3"));
}

#[test]
fn the_page_of_all_cells() {
    assert_eq!(finished_page(2, &[240; 4], 0), "  0   0      960     4     4\n");
    assert_eq!(finished_page(4, &[240; 16], 1).lines().last(), Some("  1   1      960     4     4"));
    // the widest figures, which the page has for any greys: 65,536 × 255 = 16,711,680
    let (greys, serials) = ([255; 65_536], [1; 65_536]);
    assert_eq!(page(256, &greys, &serials, 0), "  0   0 16711680 65536 65536\n");
    let cells = page(256, &greys, &serials, 8);
    assert_eq!(cells.lines().count(), 65_536);
    assert_eq!(cells.lines().nth(256 * 12 + 3), Some(" 12   3      255     1     1"));
    assert_eq!(cells.lines().last(), Some("255 255      255     1     1"));
}

/// For S 14.2.
#[test]
fn the_program_quote_on_p3() {
    assert_eq!(quote(b"0\n2\n128,128\n128,128\n"), b"  0   0      512     2     4\n");
    assert_eq!(quote(b"1\n2\n128,128\n128,128\n"), finished_page(2, &P3_GREYS, 1).as_bytes());
}
