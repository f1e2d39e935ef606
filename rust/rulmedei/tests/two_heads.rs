//! Two Heads: small maps, what it fills and answers, its refusals in order, and that nothing is lost.

use rulmedei::{
    cells, codes, drill_list, list_room, lower, place, pyramid_length, sample, tally, two_heads, Progress, TwoHeads,
    PLAIN, RIBBED,
};

const SIDES: [u32; 8] = [2, 4, 8, 16, 32, 64, 128, 256];

/// The buffers of a side.
struct Buffers {
    pyramid: Vec<i64>,
    serials: Vec<u32>,
    order: Vec<u32>,
}

/// With numbers that Two Heads does not leave at all of these places.
fn buffers(side: u32) -> Buffers {
    Buffers { pyramid: vec![-9; pyramid_length(side)], serials: vec![9; cells(side)], order: vec![8; cells(side)] }
}

fn run(side: u32, knit: u32, greys: &[u8]) -> (TwoHeads, Buffers) {
    let mut buffers = buffers(side);
    let Buffers { pyramid, serials, order } = &mut buffers;
    let end = two_heads(side, knit, greys, pyramid, serials, order).unwrap();
    (end, buffers)
}

/// The sample of a seed, lowered.
fn sampled(seed: u32, side: u32) -> Vec<u8> {
    let mut greys = vec![0; cells(side)];
    sample(seed, side, &mut greys).unwrap();
    lower(&mut greys);
    greys
}

/// A map of side 16 with these greys, by row and column, and the cells that it is burnt in.
fn burnt(dark: &[(usize, usize, u8)]) -> Vec<(u32, u32)> {
    let mut greys = [0; 256];
    for (row, column, grey) in dark {
        greys[16 * row + column] = *grey;
    }
    let (end, buffers) = run(16, PLAIN, &greys);
    buffers.order[..end.made as usize].iter().map(|cell| (cell / 16, cell % 16)).collect()
}

/// For S 13.5.
#[test]
fn small_maps() {
    // each cell can be burnt at one offset alone; the darkest keeps the others back
    assert_eq!(burnt(&[(2, 2, 240), (2, 7, 239), (7, 2, 238), (7, 7, 237)]), [(2, 2), (2, 7), (7, 2), (7, 7)]);
    assert_eq!(burnt(&[(2, 7, 238), (7, 2, 239), (7, 7, 240)]), [(7, 7), (2, 7), (7, 2)]);
    // at the edge of the map, equal blocks, equal cells, macroblocks by row
    assert_eq!(burnt(&[(0, 3, 128), (1, 9, 64), (1, 13, 64), (9, 1, 64), (9, 2, 64)]), [(0, 3), (1, 9), (9, 1)]);
    // on two sides of the rim, of which one is the edge of the map
    assert_eq!(burnt(&[(0, 7, 127), (2, 2, 100), (15, 8, 240)]), [(15, 8)]);
    // the macroblock in the middle comes to just half a hole, then to one less
    assert_eq!(burnt(&[(3, 3, 237), (6, 6, 129)]), [(3, 3), (6, 6)]);
    assert_eq!(burnt(&[(3, 12, 239), (6, 9, 131), (12, 3, 229)]), [(3, 12), (12, 3)]);
    assert_eq!(burnt(&[]), []);
}

/// A hole inside a map, on plain cloth and on ribbed: the whole pyramid (S 13.5).
#[test]
fn the_pyramid_lies_by_quarters() {
    let mut greys = [0; 256];
    greys[7 * 16 + 7] = 240;
    for (knit, straight, diagonal) in [(PLAIN, -640, -320), (RIBBED, -960, 0)] {
        let (end, buffers) = run(16, knit, &greys);
        assert_eq!((end.made, end.debt), (1, -3840));
        for row in 0..16usize {
            for column in 0..16usize {
                let owed = match (row.abs_diff(7), column.abs_diff(7)) {
                    (0, 1) | (1, 0) => straight,
                    (1, 1) => diagonal,
                    _ => 0,
                };
                assert_eq!(buffers.pyramid[place(4, row, column)], owed, "{row}, {column}");
            }
        }
        for entry in 0..85 {
            assert_eq!(buffers.pyramid[entry], buffers.pyramid[4 * entry + 1..4 * entry + 5].iter().sum::<i64>());
        }
    }
}

/// Every cell once, serials and order alike, sums that hold, and what the holes are worth with the debt is the map's
/// (S 15.15).
#[test]
fn nothing_is_lost() {
    for side in [16, 32, 64, 128, 256] {
        for (knit, greys) in
            [(PLAIN, sampled(side, side)), (RIBBED, sampled(side, side)), (PLAIN, vec![240; cells(side)])]
        {
            let (end, Buffers { pyramid, serials, order }) = run(side, knit, &greys);
            assert_eq!(end.progress, Progress { side, dots: end.made, knit });
            let dots = end.made as usize;
            assert!(order[..dots].iter().zip(1..).all(|(cell, serial)| serials[*cell as usize] == serial));
            assert!(order[dots..].iter().all(|cell| *cell == 0));
            assert_eq!(serials.iter().filter(|serial| **serial != 0).count(), dots);
            assert_eq!(tally(side, &serials, 0, 0, 0), Ok(end.made));
            let grey_sum: i64 = greys.iter().map(|grey| i64::from(*grey)).sum();
            assert_eq!(65_280 * i64::from(end.made) + end.debt, 256 * grey_sum);
            assert_eq!(end.debt, pyramid[0]);
            let mut list = vec![0; list_room(side)];
            let length = drill_list(end.progress, &pyramid, &serials, &order, &mut list).unwrap();
            assert_eq!(list[..length].iter().filter(|byte| **byte == b'\n').count(), dots + 1);
        }
    }
}

/// The figures of vectors/two-heads.csv: flat maps and the sample of seed 1.
#[test]
fn stored_figures() {
    for (side, knit, greys, holes, debt) in [
        (16, PLAIN, vec![1; 256], 0, 65_536),
        (16, PLAIN, vec![240; 256], 240, 61_440),
        (16, PLAIN, sampled(1, 16), 127, 47_360),
        (16, RIBBED, sampled(1, 16), 129, -83_200),
        (256, PLAIN, vec![240; 65_536], 61_440, 15_728_640),
        (256, PLAIN, sampled(1, 256), 32_762, -10_169_600),
        (256, RIBBED, sampled(1, 256), 32_730, -8_080_640),
    ] {
        let (end, _) = run(side, knit, &greys);
        assert_eq!((end.made, end.debt), (holes, debt));
    }
}

/// The number for such lengths of greys, pyramid, serials and order. A refusal writes five zeros and nothing else.
fn number(side: u32, knit: u32, grey: u8, [a, b, c, d]: [usize; 4]) -> u32 {
    let (mut pyramid, mut serials, mut order) = (vec![-7; b], vec![9; c], vec![8; d]);
    let (code, end) = codes::two_heads(side, knit, &vec![grey; a], &mut pyramid, &mut serials, &mut order);
    let left_alone = (pyramid, serials, order) == (vec![-7; b], vec![9; c], vec![8; d]);
    let zeros = TwoHeads { progress: Progress { side: 0, dots: 0, knit: 0 }, made: 0, debt: 0 };
    assert!(code == 0 || (left_alone && end == zeros));
    code
}

/// Each refusal with all that are looked for later: 1, 14, 11, 2, 3, 4, 12 (S 5.2).
#[test]
fn refusals_in_order() {
    for side in [0, 1, 3, 15, 17, 255, 257, 512, u32::MAX] {
        assert_eq!(number(side, 2, 241, [0; 4]), 1);
    }
    for side in SIDES {
        let (n, p) = (cells(side), pyramid_length(side));
        if side < 16 {
            assert_eq!(number(side, 2, 241, [0; 4]), 14);
            assert_eq!(number(side, PLAIN, 240, [n, p, n, n]), 14);
            continue;
        }
        assert_eq!(number(side, 2, 241, [0; 4]), 11);
        assert_eq!(number(side, u32::MAX, 240, [n, p, n, n]), 11);
        assert_eq!(number(side, RIBBED, 241, [n - 1, p - 1, n - 1, n - 1]), 2);
        assert_eq!(number(side, RIBBED, 241, [n, p - 1, n - 1, n - 1]), 3);
        assert_eq!(number(side, RIBBED, 241, [n, p, n - 1, n]), 4);
        assert_eq!(number(side, RIBBED, 241, [n, p, n, n - 1]), 4);
        assert_eq!(number(side, RIBBED, 241, [n, p, n, n]), 12);
        assert_eq!(number(side, RIBBED, 240, [n, p, n, n]), 0);
    }
    let small = two_heads(8, PLAIN, &[0; 64], &mut [0; 85], &mut [0; 64], &mut [0; 64]);
    assert_eq!(small.unwrap_err().to_string(), "refused, 14: the side is below 16, too small for two heads");
}

/// A grey past the map may be above 240, and places past the needed lengths stay (S 2.9).
#[test]
fn places_past_stay() {
    let greys = [sampled(3, 16), vec![255; 2]].concat();
    let (mut pyramid, mut serials, mut order) = (vec![-7; 344], vec![9; 257], vec![8; 258]);
    let end = two_heads(16, RIBBED, &greys, &mut pyramid, &mut serials, &mut order).unwrap();
    let (exact, Buffers { pyramid: p, serials: s, order: o }) = run(16, RIBBED, &greys);
    assert_eq!(end, exact);
    assert!(
        pyramid == [p, vec![-7; 3]].concat() && serials == [s, vec![9]].concat() && order == [o, vec![8; 2]].concat()
    );
}
