//! Greys above 240: Load, Map Text and Restore refuse them, after all else but the name; greys lowered, and Lower Text.

use rulmedei::{
    advance, cells, codes, load, lower, lower_text, map_text, pyramid_length, restore, sample, Checkpoints, Progress,
    Refusal, HIGHEST, PLAIN, RIBBED,
};

const SIDES: [u32; 8] = [2, 4, 8, 16, 32, 64, 128, 256];

/// The number of Load for these greys, lent so many places of pyramid, serials and order. A refusal writes the record
/// 0, 0, 0 and nothing else.
fn load_number(side: u32, knit: u32, greys: &[u8], [p, s, o]: [usize; 3]) -> u32 {
    let (mut pyramid, mut serials, mut order) = (vec![9; p], vec![9; s], vec![9; o]);
    let (code, record) = codes::load(side, knit, greys, &mut pyramid, &mut serials, &mut order);
    let left_alone = (pyramid, serials, order) == (vec![9; p], vec![9; s], vec![9; o]);
    assert!(code == 0 || (left_alone && record == Progress { side: 0, dots: 0, knit: 0 }));
    code
}

/// For S 7.2.
#[test]
fn load_refuses_high_greys_last() {
    let whole = [5, 4, 4];
    for knit in [PLAIN, RIBBED] {
        assert_eq!(load_number(2, knit, &[HIGHEST; 4], whole), 0);
        for grey in 241..=255 {
            assert_eq!(load_number(2, knit, &[grey, 0, 0, 0], whole), 12);
            assert_eq!(load_number(2, knit, &[0, 0, 0, grey], whole), 12);
            // behind the map's own greys it is not looked at
            assert_eq!(load_number(2, knit, &[0, 0, 0, 240, grey], whole), 0);
        }
    }
    assert_eq!(load_number(3, 2, &[241; 4], whole), 1);
    assert_eq!(load_number(2, 2, &[241; 4], whole), 11);
    assert_eq!(load_number(2, PLAIN, &[241; 3], whole), 2);
    assert_eq!(load_number(2, PLAIN, &[241; 4], [4, 4, 4]), 3);
    assert_eq!(load_number(2, PLAIN, &[241; 4], [5, 3, 4]), 4);
    assert_eq!(load_number(2, PLAIN, &[241; 4], [5, 4, 3]), 4);
}

/// For S 9.1.
#[test]
fn map_text_refuses_high_greys_last() {
    let number = |text: &[u8], room: usize| {
        let mut greys = vec![9; room];
        let (code, side) = codes::map_text(text, &mut greys);
        assert!(code == 0 || (side == 0 && greys.iter().all(|grey| *grey == 9)));
        code
    };
    assert_eq!(number(b"2\n240,240\n240,240\n", 4), 0);
    assert_eq!(number(b"2\n241,240\n240,240\n", 4), 12);
    assert_eq!(number(b"2\n240,240\n240,255\n", 5), 12);
    assert_eq!(number(b"02\n241,240\n240,240\n", 4), 7);
    assert_eq!(number(b"3\n241,240\n240,240\n", 4), 1);
    assert_eq!(number(b"2\n241,240\n240,240\n", 3), 2);
    assert_eq!(number(b"2\n241,240\n240,256\n", 4), 7);
    assert_eq!(number(b"2\n241,240\n240,240", 4), 7);
}

/// The number of a return to name 1, which has one hole, or to another name, on a sheet of side 2 with one hole. A
/// refusal changes nothing.
fn return_number(record: Progress, name: u32, greys: &[u8], lent: [usize; 3]) -> u32 {
    let (mut pyramid, mut serials, mut order) = (vec![9; 6], vec![9; 5], vec![9; 5]);
    let start = load(2, PLAIN, &[128; 4], &mut pyramid, &mut serials, &mut order).unwrap();
    advance(start, 1, &mut pyramid, &mut serials, &mut order).unwrap();
    let before = (pyramid.clone(), serials.clone(), order.clone());
    let value = Checkpoints { kept: [2, 0, 0, 0, 0, 0, 0, 0] };
    let (p, s, o) = (&mut pyramid[..lent[0]], &mut serials[..lent[1]], &mut order[..lent[2]]);
    let (code, after) = codes::restore(record, &value, name, greys, p, s, o);
    assert!(code == 0 || (after == record && before == (pyramid, serials, order)));
    code
}

/// For S 10.3.
#[test]
fn restore_refuses_high_greys_before_the_name() {
    let record = Progress { side: 2, dots: 1, knit: PLAIN };
    let (high, whole) = ([240, 240, 240, 241], [6, 5, 5]);
    assert_eq!(return_number(record, 1, &[240; 4], whole), 0);
    assert_eq!(return_number(record, 1, &[240, 240, 240, 240, 255], whole), 0);
    for name in [1, 2, 9] {
        assert_eq!(return_number(record, name, &high, whole), 12);
        assert_eq!(return_number(record, name, &[255, 0, 0, 0], whole), 12);
        assert_eq!(return_number(Progress { side: 3, knit: 2, ..record }, name, &high, whole), 1);
        assert_eq!(return_number(Progress { knit: 2, ..record }, name, &high, whole), 11);
        assert_eq!(return_number(record, name, &high[1..], whole), 2);
        assert_eq!(return_number(record, name, &high, [4, 5, 5]), 3);
        assert_eq!(return_number(record, name, &high, [5, 3, 4]), 4);
        assert_eq!(return_number(record, name, &high, [5, 4, 3]), 4);
        assert_eq!(return_number(Progress { dots: 0, ..record }, name, &high, whole), 5);
    }
}

/// A sheet of greys of 255, loaded before these were refused: it burns to its end, and a return takes lowered greys
/// (S 7.5).
#[test]
fn an_older_sheet() {
    let (mut pyramid, mut serials, mut order) = ([4 * 65_280, 65_280, 65_280, 65_280, 65_280], [0; 4], [0; 4]);
    let start = Progress { side: 2, dots: 0, knit: PLAIN };
    let end = advance(start, 9, &mut pyramid, &mut serials, &mut order).unwrap();
    assert_eq!((end.made, end.finished, pyramid, order), (4, true, [0; 5], [0, 3, 1, 2]));
    let (value, mut greys) = (Checkpoints { kept: [2, 0, 0, 0, 0, 0, 0, 0] }, [255; 4]);
    let back = restore(end.progress, value, 1, &greys, &mut pyramid, &mut serials, &mut order);
    assert_eq!((back, order), (Err(Refusal::GreyHigh), [0, 3, 1, 2]));
    lower(&mut greys);
    let back = restore(end.progress, value, 1, &greys, &mut pyramid, &mut serials, &mut order);
    assert_eq!(back, Ok(Progress { dots: 1, ..start }));
    assert_eq!(pyramid, [180_480, 0, 59_904, 59_904, 60_672]);
}

/// For S 12.4.
#[test]
fn lower_lowers_each_grey() {
    let mut greys: Vec<u8> = (0..=255).collect();
    lower(&mut greys[..251]);
    assert!(greys[..240].iter().copied().eq(0..240));
    assert_eq!(greys[240..], [240, 240, 240, 240, 240, 240, 240, 240, 240, 240, 240, 251, 252, 253, 254, 255]);
    lower(&mut greys);
    assert_eq!(greys[240..], [240; 16]);
    lower(&mut []);
}

/// For S 9.2.
#[test]
fn lower_text_writes_the_text() {
    let (mut greys, mut out) = ([9; 5], [b'#'; 20]);
    assert_eq!(lower_text(b"2\n0,255\n241,10\n", &mut greys, &mut out), Ok(15));
    assert_eq!(&out, b"2\n0,240\n240,10\n#####");
    assert_eq!(greys, [0, 240, 240, 10, 9]);
}

/// For S 5.2.
#[test]
fn lower_text_refuses_in_order() {
    let number = |text: &[u8], room: usize, length: usize| {
        let (mut greys, mut out) = (vec![9; room], vec![b'#'; length]);
        let (code, written) = codes::lower_text(text, &mut greys, &mut out);
        let left_alone = greys.iter().all(|grey| *grey == 9) && out.iter().all(|byte| *byte == b'#');
        assert!(code == 0 || (written == 0 && left_alone));
        code
    };
    let text = b"2\n255,255\n255,255\n";
    assert_eq!(number(text, 4, 18), 0);
    assert_eq!(number(b"x\n", 0, 0), 7);
    assert_eq!(number(b"", 0, 0), 7);
    assert_eq!(number(b"3\nx", 0, 0), 1);
    assert_eq!(number(b"2\nx", 3, 0), 2);
    assert_eq!(number(&text[..17], 4, 0), 7);
    assert_eq!(number(b"2\n255,255\n255,256\n", 4, 18), 7);
    assert_eq!(number(text, 3, 18), 2);
    assert_eq!(number(text, 4, 17), 8);
    assert_eq!(number(text, 4, 0), 8);
}

/// The text of a map.
fn text_of(side: u32, greys: &[u8]) -> Vec<u8> {
    let rows = greys.chunks(side as usize).map(|row| row.iter().map(u8::to_string).collect::<Vec<_>>().join(","));
    rows.fold(format!("{side}\n"), |text, row| text + &row + "\n").into_bytes()
}

/// Samples of every side: refused, then lowered as a text and as greys, which comes to the same; the text has as many
/// bytes, is read back, and lowered once more it is copied (S 15.10).
#[test]
fn samples_of_every_side() {
    for side in SIDES {
        let mut greys = vec![0; cells(side)];
        sample(3, side, &mut greys).unwrap();
        greys[0] = 255;
        let text = text_of(side, &greys);
        let (mut read, mut written) = (vec![9; greys.len()], vec![b'#'; text.len()]);
        assert_eq!(map_text(&text, &mut read), Err(Refusal::GreyHigh));
        assert_eq!(lower_text(&text, &mut read, &mut written), Ok(text.len()));
        let (mut pyramid, mut serials, mut order) =
            (vec![0; pyramid_length(side)], vec![0; greys.len()], vec![0; greys.len()]);
        let loaded = load(side, PLAIN, &greys, &mut pyramid, &mut serials, &mut order);
        assert_eq!(loaded, Err(Refusal::GreyHigh));
        lower(&mut greys);
        assert!(load(side, PLAIN, &greys, &mut pyramid, &mut serials, &mut order).is_ok());
        assert!(read == greys && written == text_of(side, &greys));
        read.fill(9);
        assert_eq!(map_text(&written, &mut read), Ok(side));
        assert!(read == greys);
        let mut again = vec![b'#'; text.len()];
        assert_eq!(lower_text(&written, &mut read, &mut again), Ok(text.len()));
        assert!(again == written);
    }
}
