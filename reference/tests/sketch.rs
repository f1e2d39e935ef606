//! Sketch Quote, and the program `sketch`. What it promises of every map between the lows and the highs is in
//! guarantees.rs.

use reference::*;

/// A sketch of side 4, worked by hand: its blocks of 2 by 2 have highs that sum to 85, 470, 86 and 85.
const SIDE_4: &str = "4\n0,0,0,10,5,20,100,120\n0,0,0,75,60,90,10,240\n0,21,0,21,0,22,0,21\n0,22,0,22,0,21,0,21\n";

/// The answer of Sketch Quote in buffers of these lengths, lows, highs and caps, and the buffers afterwards. Their
/// places are 99, 98 and 77 before.
fn answered(text: &[u8], level: u32, lengths: [usize; 3]) -> (Result<SketchQuote, u32>, Vec<u8>, Vec<u8>, Vec<u32>) {
    let [mut lows, mut highs] = [vec![99; lengths[0]], vec![98; lengths[1]]];
    let mut caps = vec![77; lengths[2]];
    let answer = sketch_quote(text, level, &mut lows, &mut highs, &mut caps);
    (answer.map_err(Refusal::number), lows, highs, caps)
}

/// Its number. A refusal writes nothing.
fn number(text: &[u8], level: u32, lengths: [usize; 3]) -> u32 {
    let (answer, lows, highs, caps) = answered(text, level, lengths);
    let [a, b, c] = lengths;
    assert!(answer.is_ok() || (lows, highs, caps) == (vec![99; a], vec![98; b], vec![77; c]));
    answer.err().unwrap_or(0)
}

fn totals(side: u32, least: u32, greatest: u32) -> Result<SketchQuote, u32> {
    Ok(SketchQuote { side, least, greatest })
}

/// For S 9.4.
#[test]
fn by_hand() {
    let text = b"2\n10,20,0,240\n128,128,5,6\n";
    let (lows, highs) = (vec![10, 0, 128, 5], vec![20, 240, 128, 6]);
    assert_eq!(answered(text, 0, [4, 4, 1]), (totals(2, 1, 2), lows.clone(), highs.clone(), vec![4]));
    assert_eq!(answered(text, 1, [4, 4, 4]), (totals(2, 1, 2), lows, highs, vec![1; 4]));
    let lows = vec![0, 0, 5, 100, 0, 0, 60, 10, 0, 0, 0, 0, 0, 0, 0, 0];
    let highs = vec![0, 10, 20, 120, 0, 75, 90, 240, 21, 21, 22, 21, 22, 22, 21, 21];
    for (level, caps) in [(0, vec![9]), (1, vec![3, 4, 4, 3]), (2, vec![1; 16])] {
        let expected = (totals(4, 1, 3), lows.clone(), highs.clone(), caps.clone());
        assert_eq!(answered(SIDE_4.as_bytes(), level, [16, 16, caps.len()]), expected);
    }
}

/// Half a hole more or less: a total goes up where the sum comes to 128, and to 383 (S 9.4).
#[test]
fn totals_at_the_boundary() {
    for (low, high, least, greatest) in [(0, 127, 0, 0), (127, 128, 0, 1), (128, 128, 1, 1), (128, 240, 1, 1)] {
        let text = format!("2\n{low},{high},0,0\n0,0,0,0\n");
        assert_eq!(answered(text.as_bytes(), 0, [4, 4, 1]).0, totals(2, least, greatest));
    }
    let text = b"2\n200,200,182,183\n0,0,0,0\n";
    assert_eq!(answered(text, 0, [4, 4, 1]).0, totals(2, 1, 2));
}

/// The places past the cells, and past the caps of the level, stay (S 9.4, S 2.9).
#[test]
fn places_past_stay() {
    let text = b"2\n0,1,2,3\n4,5,6,7\n";
    let expected = (totals(2, 0, 0), vec![0, 2, 4, 6, 99, 99, 99], vec![1, 3, 5, 7, 98], vec![3, 77, 77, 77]);
    assert_eq!(answered(text, 0, [7, 5, 4]), expected);
    let (_, lows, highs, caps) = answered(text, 1, [5, 6, 9]);
    assert_eq!(lows, [0, 2, 4, 6, 99]);
    assert_eq!(highs, [1, 3, 5, 7, 98, 98]);
    assert_eq!(caps, [1, 1, 1, 1, 77, 77, 77, 77, 77]);
}

/// Lows and highs for a side, from the generator of samples: of every two greys the lower and the higher one.
fn sketched(seed: u32, side: u32) -> (Vec<u8>, Vec<u8>) {
    let greys = maps::sampled(seed, 2 * cell_count(side));
    greys.chunks(2).map(|two| (two[0].min(two[1]), two[0].max(two[1]))).unzip()
}

/// The caps that the quote page of a map prints for a level.
fn printed_caps(side: u32, greys: &[u8], level: u32) -> Vec<u32> {
    let mut page = vec![b'#'; 29 * 4usize.pow(level)];
    assert_eq!(quote_page(side, greys, &vec![0; cell_count(side)], level, &mut page), Ok(page.len()));
    let cap = |line: &[u8]| std::str::from_utf8(&line[23..28]).unwrap().trim().parse().unwrap();
    page.chunks(29).map(cap).collect()
}

/// Sketches of every side, at every level: both buffers as they were written, the totals that the two maps come to
/// (S 15.3), and the caps that the quote page has for the map of the highs (S 9.4).
#[test]
fn every_side_and_level() {
    let total = |greys: &[u8]| (2 * greys.iter().map(|grey| u32::from(*grey)).sum::<u32>() + 255) / 510;
    for side in SIDES {
        let (lows, highs) = sketched(side, side);
        let (text, n) = (write_sketch(side, &lows, &highs), cell_count(side));
        for level in 0..=power(side).unwrap() {
            let answer = answered(&text, level, [n, n, 4usize.pow(level)]);
            let caps = printed_caps(side, &highs, level);
            assert_eq!(answer, (totals(side, total(&lows), total(&highs)), lows.clone(), highs.clone(), caps));
        }
    }
}

/// A low that is the high: the sketch of a map that is known. Both totals are the map's (S 9.4).
#[test]
fn equal_pairs() {
    for side in [2, 4, 8, 16, 32] {
        for name in maps::NAMES {
            let (greys, n) = (maps::named(name, side), cell_count(side));
            let (answer, lows, highs, caps) = answered(&write_sketch(side, &greys, &greys), 1, [n, n, 4]);
            let mut buffers = Buffers::new(side).unwrap();
            let start = buffers.load(side, PLAIN, &greys).progress;
            let dots = buffers.advance(start, u32::MAX).progress.dots;
            assert_eq!(answer, totals(side, dots, dots));
            assert!(lows == greys && highs == greys);
            assert_eq!(caps, printed_caps(side, &greys, 1));
        }
    }
}

/// Each refusal with all that are looked for later: 7 for the first line, 1, 2, 7 for the rest, 12, 13, 6, 8
/// (S 5.2, S 6.4).
#[test]
fn refusals_in_order() {
    for side in SIDES {
        let (n, past) = (cell_count(side), power(side).unwrap() + 1);
        let (lows, highs) = sketched(1, side);
        let good = write_sketch(side, &lows, &highs);
        for place in [0, n / 2, n - 1] {
            let (mut high, mut falling) = ((lows.clone(), highs.clone()), (lows.clone(), highs.clone()));
            (falling.0[n - 1 - place], falling.1[n - 1 - place]) = (8, 7);
            (high.0[n - 1 - place], high.1[n - 1 - place]) = (8, 7);
            (high.0[place], high.1[place]) = (if place == 0 { 241 } else { 0 }, 241);
            let [high, falling] = [high, falling].map(|(lows, highs)| write_sketch(side, &lows, &highs));
            let cut = &high[..high.len() - 1];
            for (line, refused) in [("02\n", 7), ("x\n", 7), ("\n", 7), ("1000\n", 7), ("3\n", 1), ("0\n", 1)] {
                assert_eq!(number(&[line.as_bytes(), cut].concat(), past, [0, 0, 0]), refused);
            }
            for [a, b] in [[n - 1, n - 1], [n - 1, n], [n, n - 1], [0, n], [n, 0]] {
                assert_eq!(number(cut, past, [a, b, 0]), 2);
                assert_eq!(number(&good, 0, [a, b, n]), 2);
            }
            for wrong in [cut, &[&high[..], b"\n"].concat(), &[&high[..], b"0"].concat()] {
                assert_eq!(number(wrong, past, [n, n, 0]), 7);
            }
            assert_eq!(number(&high, past, [n, n, 0]), 12);
            assert_eq!(number(&high, 0, [n, n, n]), 12);
            assert_eq!(number(&falling, past, [n, n, 0]), 13);
            assert_eq!(number(&falling, 0, [n, n, n]), 13);
        }
        for level in [past, past + 1, 9, 16, 32, 1 << 31, u32::MAX] {
            assert_eq!(number(&good, level, [n, n, 0]), 6);
            assert_eq!(number(&good, level, [n, n, 4 * n]), 6);
        }
        for level in 0..past {
            let squares = 4usize.pow(level);
            assert_eq!(number(&good, level, [n, n, 0]), 8);
            assert_eq!(number(&good, level, [n, n, squares - 1]), 8);
            assert_eq!(number(&good, level, [n, n, squares]), 0);
            assert_eq!(number(&good, level, [n + 1, n + 2, squares + 3]), 0);
        }
    }
    assert_eq!(number(b"", u32::MAX, [0, 0, 0]), 7);
    assert_eq!(number(b"2", u32::MAX, [4, 4, 4]), 7);
}

/// 12 and 13 wherever they are: as a low or as a high, in any pair, and 12 before 13 also in one pair (S 9.4).
#[test]
fn high_and_falling_pairs() {
    let refused = |pairs: &str| number(format!("2\n{pairs}\n").as_bytes(), 0, [4, 4, 1]);
    for (pairs, refusal) in [
        ("240,240,240,240\n240,240,240,240", 0),
        ("0,0,0,0\n0,0,0,0", 0),
        ("9,9,0,5\n7,240,3,3", 0),
        ("241,241,0,0\n0,0,0,0", 12),
        ("0,241,0,0\n0,0,0,0", 12),
        ("0,0,0,0\n0,0,255,255", 12),
        ("0,0,0,0\n0,0,0,241", 12),
        ("241,0,0,0\n0,0,0,0", 12),
        ("1,0,0,0\n0,0,0,241", 12),
        ("0,241,0,0\n0,0,1,0", 12),
        ("0,255,0,0\n0,0,1,0", 12),
        ("1,0,0,0\n0,0,0,0", 13),
        ("0,0,0,0\n0,0,1,0", 13),
        ("0,0,240,239\n0,0,0,0", 13),
        ("0,256,0,0\n0,0,0,0", 7),
        ("256,0,0,0\n0,0,0,241", 7),
        ("1,0,0,241\n0,0,0,256", 7),
    ] {
        assert_eq!(refused(pairs), refusal, "{pairs}");
    }
    // a high may be above the next low
    assert_eq!(refused("5,9,3,4\n2,8,1,1"), 0);
}

/// All greys of a pair.
#[test]
fn each_pair() {
    for low in 0..=255 {
        for high in 0..=255 {
            let text = format!("2\n0,0,0,0\n{low},{high},0,0\n");
            let refused = if low > 240 || high > 240 {
                12
            } else if low > high {
                13
            } else {
                0
            };
            assert_eq!(number(text.as_bytes(), 1, [4, 4, 4]), refused);
        }
    }
}

/// Rows that are none of a sketch: one number or one pair too few or too many, other marks, the text of a map (S 6.3).
#[test]
fn other_lines() {
    let wrong = "|0,0\n0,0\n|0,0,0,0\n0,0,0\n|0,0,0\n0,0,0,0\n|0,0,0,0\n0,0\n|0,0,0,0,0\n0,0,0,0\n|0,0,0,0\n|\
                 0,0,0,0,0,0\n0,0,0,0\n|0,0\n0,0\n0,0\n0,0\n|0,0,0,0\n0,0,0,0|0,0,0,0\n0,0,0,0\n\n|\
                 0,0,0,0,0,0,0,0\n|0-0,0-0\n0-0,0-0\n|0,0;0,0\n0,0;0,0\n|0 0,0 0\n0 0,0 0\n|0,0,0,0\r\n0,0,0,0\r\n|\
                 0,0,0,00\n0,0,0,0\n|0,0,0,0\n0,0,0,01\n|0,0,0,256\n0,0,0,0\n|0,0,0,\n0,0,0,0\n|,0,0,0\n0,0,0,0\n|\
                 0,0,0,0\n0,0,0,0\n0,0,0,0\n|0,,0,0\n0,0,0,0\n|0,0,0,0,\n0,0,0,0\n|0, 0,0,0\n0,0,0,0\n|\
                 0,0,0,-1\n0,0,0,0\n|\n0,0,0,0\n0,0,0,0\n|0,0,0,0\n0,0,0,0\nx|0,0,0,0\n\n0,0,0,0\n";
    for rest in wrong.split('|') {
        let text = format!("2\n{rest}");
        assert_eq!(number(text.as_bytes(), 1, [4, 4, 4]), 7, "{rest:?}");
        assert_eq!(number(text.as_bytes(), 2, [4, 4, 0]), 7, "{rest:?}");
    }
    for side in SIDES {
        let (n, greys) = (cell_count(side), maps::named("random", side));
        assert_eq!(number(&write_map_text(side, &greys), 0, [n, n, 1]), 7);
        assert_eq!(map_text(&write_sketch(side, &greys, &greys), &mut vec![99; 2 * n]), Err(Refusal::BadText));
    }
}

/// With bytes changed it may still be a sketch, but only as the text of what was read (S 6.3).
#[test]
fn there_and_back() {
    let bits = maps::generated(9, 400_000);
    let mut bits = bits.iter().map(|byte| usize::from(*byte));
    let mut pick = |count: usize| bits.next().unwrap() % count;
    let mut met = [0; 14];
    for _ in 0..20_000 {
        let lows = [0; 4].map(|_: u8| [0, 9, 99, 100, 239, 240][pick(6)]);
        let highs = lows.map(|low| if pick(2) == 0 { low } else { 240 });
        let mut text = write_sketch(2, &lows, &highs);
        for _ in 0..pick(3) {
            let place = pick(text.len());
            text[place] = b"0123456789,\n"[pick(12)];
        }
        let (answer, lows, highs, caps) = answered(&text, 0, [4, 4, 1]);
        match answer {
            Ok(quote) => {
                assert_eq!((quote.side, write_sketch(2, &lows, &highs)), (2, text));
                assert!(quote.least <= quote.greatest && quote.greatest <= caps[0]);
                met[0] += 1;
            }
            Err(refused) => met[refused as usize] += 1,
        }
    }
    for number in [0, 1, 2, 7, 12, 13] {
        assert!(met[number] > 100, "{met:?}");
    }
    assert_eq!(met.iter().sum::<u32>(), [0, 1, 2, 7, 12, 13].map(|number: usize| met[number]).iter().sum());
}

/// For S 14.5.
#[test]
fn the_program() {
    let printed = |input: &str| String::from_utf8(sketch(input.as_bytes())).unwrap();
    assert_eq!(printed("0\n2\n10,20,0,240\n128,128,5,6\n"), "    1     2\n  0   0     4\n");
    assert_eq!(printed(&format!("0\n{SIDE_4}")), "    1     3\n  0   0     9\n");
    let page = "    1     3\n  0   0     3\n  0   1     4\n  1   0     4\n  1   1     3\n";
    assert_eq!(printed(&format!("1\n{SIDE_4}")), page);
    assert_eq!(printed(&format!("3\n{SIDE_4}")), "refused,6\n");
    // the darkest sketch of side 32: as a whole, in four rows of four, and a line for each cell
    let text = String::from_utf8(write_sketch(32, &[0; 1_024], &[240; 1_024])).unwrap();
    assert_eq!(printed(&format!("0\n{text}")), "    0   964\n  0   0  1007\n");
    let page = printed(&format!("2\n{text}"));
    assert_eq!(page.len(), 12 + 16 * 14);
    assert!(page.starts_with("    0   964\n  0   0    64\n  0   1    64\n"));
    let page = printed(&format!("5\n{text}"));
    assert_eq!(page.len(), 12 + 1_024 * 14);
    assert!(page.ends_with("\n 31  30     1\n 31  31     1\n"));
    assert_eq!(printed(&format!("6\n{text}")), "refused,6\n");
}

/// For S 14.5.
#[test]
fn the_program_refuses() {
    const SKETCH: &str = "2\n0,240,1,1\n10,17,7,7\n";
    let printed = |input: &str| String::from_utf8(sketch(input.as_bytes())).unwrap();
    // the first line comes before all else, and a sketch that isn't read before the level
    let wrong = "|\n|00\n|01\n|+1\n|-1\n|-0\n| 1\n|1 \n|1\r\n|1,\n|x\n|1.0\n|\"1\"\n|4294967296\n|04294967295\n|\
                 18446744073709551617\n|\u{661}\n";
    for line in wrong.split('|') {
        for rest in [SKETCH, "3\n", "64\n", "", "2\n241,0,0,0\n1,0,0,0\n"] {
            assert_eq!(printed(&format!("{line}{rest}")), "refused,7\n", "{line:?}");
        }
    }
    assert_eq!(sketch(&[&[255, 10], SKETCH.as_bytes()].concat()), b"refused,7\n");
    for level in ["0", "1", "2", "5", "6", "4294967295"] {
        assert_eq!(printed(level), "refused,7\n");
        for (text, refused) in [
            ("", 7),
            ("x\n", 7),
            ("3\n", 1),
            ("3\n241,0\n", 1),
            ("64\n", 2),
            ("256\nx", 2),
            ("2\n0,240,1,1\n10,17,7,7", 7),
            ("2\n0,241,1,0\n10,17,7,256\n", 7),
            ("2\n0,240\n10,7\n", 7),
            ("2\n0,240,1,0\n10,17,7,241\n", 12),
            ("2\n0,240,1,0\n10,17,7,7\n", 13),
            ("2\n0,240,1,1\n10,17,7,6\n", 13),
        ] {
            assert_eq!(printed(&format!("{level}\n{text}")), format!("refused,{refused}\n"));
        }
    }
    for level in [2, 3, 10, 32, 999, 4_294_967_294, u32::MAX] {
        assert_eq!(printed(&format!("{level}\n{SKETCH}")), "refused,6\n");
    }
    assert_eq!(printed(&format!("0\n{SKETCH}")), "    0     1\n  0   0     4\n");
}
