//! Sketch Quote: what it reads, writes and answers, its refusals in order, and maps between the lows and the highs.

use rulmedei::{
    advance, cells, codes, load, lower, pyramid_length, quote_page, sample, sketch_quote, tally, Refusal, SketchQuote,
    PLAIN, RIBBED,
};

const SIDES: [u32; 8] = [2, 4, 8, 16, 32, 64, 128, 256];

/// The text of a sketch.
fn text_of(side: u32, lows: &[u8], highs: &[u8]) -> Vec<u8> {
    let pairs: Vec<String> = lows.iter().zip(highs).map(|(low, high)| format!("{low},{high}")).collect();
    let rows = pairs.chunks(side as usize).map(|row| row.join(","));
    rows.fold(format!("{side}\n"), |text, row| text + &row + "\n").into_bytes()
}

/// The number for a text and a level, with so many places of lows, highs and caps. A refusal writes three zeros and
/// nothing else.
fn number(text: &[u8], level: u32, [a, b, c]: [usize; 3]) -> u32 {
    let (mut lows, mut highs, mut caps) = (vec![9; a], vec![8; b], vec![7; c]);
    let (code, quote) = codes::sketch_quote(text, level, &mut lows, &mut highs, &mut caps);
    let left_alone = (lows, highs, caps) == (vec![9; a], vec![8; b], vec![7; c]);
    assert!(code == 0 || (left_alone && quote == SketchQuote { side: 0, least: 0, greatest: 0 }));
    code
}

/// Lows and highs of a side: two samples, lowered, of which each cell has the lower grey and the higher one.
fn sketched(seed: u32, side: u32) -> (Vec<u8>, Vec<u8>) {
    let [mut one, mut other] = [vec![0; cells(side)], vec![0; cells(side)]];
    let state = sample(seed, side, &mut one).unwrap();
    sample(state, side, &mut other).unwrap();
    lower(&mut one);
    lower(&mut other);
    one.iter().zip(&other).map(|(one, other)| (*one.min(other), *one.max(other))).unzip()
}

/// For S 9.4.
#[test]
fn two_sketches() {
    let (mut lows, mut highs, mut caps) = ([9; 5], [8; 6], [7; 3]);
    let quote = sketch_quote(b"2\n10,20,0,240\n128,128,5,6\n", 0, &mut lows, &mut highs, &mut caps);
    assert_eq!(quote, Ok(SketchQuote { side: 2, least: 1, greatest: 2 }));
    assert_eq!((lows, highs, caps), ([10, 0, 128, 5, 9], [20, 240, 128, 6, 8, 8], [4, 7, 7]));
    let text = b"4\n0,0,0,10,5,20,100,120\n0,0,0,75,60,90,10,240\n0,21,0,21,0,22,0,21\n0,22,0,22,0,21,0,21\n";
    let (mut lows, mut highs, mut caps) = ([9; 16], [8; 16], [7; 5]);
    let quote = sketch_quote(text, 1, &mut lows, &mut highs, &mut caps);
    assert_eq!(quote, Ok(SketchQuote { side: 4, least: 1, greatest: 3 }));
    assert_eq!(lows, [0, 0, 5, 100, 0, 0, 60, 10, 0, 0, 0, 0, 0, 0, 0, 0]);
    assert_eq!(highs, [0, 10, 20, 120, 0, 75, 90, 240, 21, 21, 22, 21, 22, 22, 21, 21]);
    assert_eq!(caps, [3, 4, 4, 3, 7]);
}

/// For S 5.2.
#[test]
fn refusals_in_order() {
    let whole = [4, 4, 4];
    assert_eq!(number(b"2\n240,240,0,0\n7,7,1,2\n", 1, whole), 0);
    assert_eq!(number(b"02\n241,0,1,0\n0,0,0,256\n", 2, [0; 3]), 7);
    assert_eq!(number(b"", u32::MAX, [0; 3]), 7);
    assert_eq!(number(b"3\n241,0,1,0\n0,0,0,256\n", 2, [0; 3]), 1);
    assert_eq!(number(b"2\n241,0,1,0\n0,0,0,256\n", 2, [3, 4, 0]), 2);
    assert_eq!(number(b"2\n241,0,1,0\n0,0,0,256\n", 2, [4, 3, 0]), 2);
    assert_eq!(number(b"2\n241,0,1,0\n0,0,0,256\n", 2, [4, 4, 0]), 7);
    assert_eq!(number(b"2\n241,0,1,0\n0,0,0,0", 2, [4, 4, 0]), 7);
    assert_eq!(number(b"2\n0,0\n0,0\n", 0, whole), 7);
    assert_eq!(number(b"2\n0,0,1,0\n0,0,0,241\n", 2, [4, 4, 0]), 12);
    assert_eq!(number(b"2\n241,0,0,0\n0,0,0,0\n", 2, [4, 4, 0]), 12);
    assert_eq!(number(b"2\n0,0,0,0\n241,241,0,0\n", 1, whole), 12);
    assert_eq!(number(b"2\n1,0,0,0\n0,0,0,0\n", 2, [4, 4, 0]), 13);
    assert_eq!(number(b"2\n0,0,0,0\n0,0,240,239\n", 1, whole), 13);
    assert_eq!(number(b"2\n5,5,0,0\n0,0,0,0\n", 2, [4, 4, 0]), 6);
    assert_eq!(number(b"2\n5,5,0,0\n0,0,0,0\n", u32::MAX, whole), 6);
    assert_eq!(number(b"2\n5,5,0,0\n0,0,0,0\n", 1, [4, 4, 3]), 8);
    assert_eq!(number(b"2\n5,5,0,0\n0,0,0,0\n", 0, [4, 4, 0]), 8);
    let falls = sketch_quote(b"2\n1,0,0,0\n0,0,0,0\n", 0, &mut [0; 4], &mut [0; 4], &mut [0]);
    assert_eq!(falls.unwrap_err().to_string(), "refused, 13: a cell of the sketch has its low above its high");
}

/// The same for every side, in the first pair and in the last.
#[test]
fn refusals_of_every_side() {
    for side in SIDES {
        let (n, past) = (cells(side), side.ilog2() + 1);
        let (lows, highs) = sketched(side, side);
        let refused = |place: usize, pair: [u8; 2], lengths: [usize; 3]| {
            let (mut lows, mut highs) = (lows.clone(), highs.clone());
            [lows[place], highs[place]] = pair;
            number(&text_of(side, &lows, &highs), past, lengths)
        };
        for place in [0, n - 1] {
            assert_eq!(refused(place, [0, 241], [n - 1, n, 0]), 2);
            assert_eq!(refused(place, [0, 241], [n, n - 1, 0]), 2);
            assert_eq!(refused(place, [0, 241], [n, n, 0]), 12);
            assert_eq!(refused(place, [255, 0], [n, n, 0]), 12);
            assert_eq!(refused(place, [240, 239], [n, n, 0]), 13);
            assert_eq!(refused(place, [240, 240], [n, n, 0]), 6);
        }
        let text = text_of(side, &lows, &highs);
        assert_eq!(number(&text[..text.len() - 1], past, [n, n, 0]), 7);
        for level in 0..past {
            assert_eq!(number(&text, level, [n, n, 4usize.pow(level) - 1]), 8);
            assert_eq!(number(&text, level, [n, n, 4usize.pow(level)]), 0);
        }
    }
}

/// The caps that the quote page prints for a level of a map.
fn printed_caps(side: u32, greys: &[u8], level: u32) -> Vec<u32> {
    let mut page = vec![0; rulmedei::page_length(level)];
    quote_page(side, greys, &vec![0; cells(side)], level, &mut page).unwrap();
    let cap = |line: &[u8]| std::str::from_utf8(&line[23..28]).unwrap().trim().parse().unwrap();
    page.chunks(29).map(cap).collect()
}

/// The holes of a finished map; halfway and at the end no square of the level has more than its cap.
fn burnt_under(side: u32, knit: u32, greys: &[u8], level: u32, caps: &[u32]) -> u32 {
    let (mut pyramid, mut serials, mut order) =
        (vec![0; pyramid_length(side)], vec![0; cells(side)], vec![0; cells(side)]);
    let mut record = load(side, knit, greys, &mut pyramid, &mut serials, &mut order).unwrap();
    for budget in [side * side / 4, u32::MAX] {
        record = advance(record, budget, &mut pyramid, &mut serials, &mut order).unwrap().progress;
        for (square, cap) in caps.iter().enumerate() {
            let (row, column) = (square as u32 >> level, square as u32 % (1 << level));
            assert!(tally(side, &serials, level, row, column).unwrap() <= *cap);
        }
    }
    record.dots
}

/// Sketches of every side: the caps are those of the quote page, and the lows, the highs and a map between them, burnt
/// on either knit, keep to what was said (S 15.11).
#[test]
fn maps_between_lows_and_highs() {
    for side in SIDES {
        let ((lows, highs), level) = (sketched(7, side), side.ilog2() / 2);
        let [mut read_lows, mut read_highs] = [vec![9; cells(side)], vec![9; cells(side)]];
        let mut caps = vec![0; 1 << (2 * level)];
        let text = text_of(side, &lows, &highs);
        let quote = sketch_quote(&text, level, &mut read_lows, &mut read_highs, &mut caps).unwrap();
        assert!(quote.side == side && read_lows == lows && read_highs == highs);
        assert_eq!(caps, printed_caps(side, &highs, level));
        let middle: Vec<u8> = lows.iter().zip(&highs).map(|(low, high)| low + (high - low) / 2).collect();
        for knit in [PLAIN, RIBBED] {
            assert_eq!(burnt_under(side, knit, &lows, level, &caps), quote.least);
            assert_eq!(burnt_under(side, knit, &highs, level, &caps), quote.greatest);
            assert!((quote.least..=quote.greatest).contains(&burnt_under(side, knit, &middle, level, &caps)));
        }
    }
}

/// For S 6.3.
#[test]
fn the_text_of_a_map_is_no_sketch() {
    let (mut lows, mut highs) = ([9; 4], [9; 4]);
    let answer = sketch_quote(b"2\n128,128\n128,128\n", 0, &mut lows, &mut highs, &mut [0]);
    assert_eq!((answer, lows, highs), (Err(Refusal::TextMalformed), [9; 4], [9; 4]));
    assert_eq!(rulmedei::map_text(b"2\n1,2,3,4\n5,6,7,8\n", &mut lows), Err(Refusal::TextMalformed));
}
