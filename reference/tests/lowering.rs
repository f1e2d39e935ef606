//! Nothing above 240: greys lowered, and Lower Text, which makes of a stored text one that Map Text takes. What is
//! refused with 12 is in refusals.rs.

use reference::*;

/// The text of these greys, for the side that has as many cells.
fn text_of(greys: &[u8]) -> Vec<u8> {
    write_map_text(greys.len().isqrt() as u32, greys)
}

/// The answer of Lower Text in buffers of these lengths, and both buffers afterwards, whose places are 99 and # before.
fn answered(text: &[u8], greys: usize, out: usize) -> (Result<usize, u32>, Vec<u8>, Vec<u8>) {
    let (mut greys, mut out) = (vec![99; greys], vec![b'#'; out]);
    let answer = lower_text(text, &mut greys, &mut out);
    (answer.map_err(Refusal::number), greys, out)
}

/// Its number. A refusal writes nothing.
fn number(text: &[u8], greys: usize, out: usize) -> u32 {
    let (answer, after, written) = answered(text, greys, out);
    let left_alone = after.iter().all(|grey| *grey == 99) && written.iter().all(|byte| *byte == b'#');
    assert!(answer.is_ok() || left_alone);
    answer.err().unwrap_or(0)
}

/// For S 9.2.
#[test]
fn by_hand() {
    let text = b"2\n0,255\n240,241\n";
    let low = b"2\n0,240\n240,240\n";
    assert_eq!(answered(text, 4, 16), (Ok(16), vec![0, 240, 240, 240], low.to_vec()));
    let longer = (Ok(16), vec![0, 240, 240, 240, 99, 99], [&low[..], b"###"].concat());
    assert_eq!(answered(text, 6, 19), longer);
    assert_eq!(convert(text), low);
    assert_eq!(convert(low), low);
}

/// For S 12.4.
#[test]
fn each_grey() {
    let mut greys: Vec<u8> = (0..=255).collect();
    lower(&mut greys);
    assert!(greys[..240].iter().copied().eq(0..240));
    assert_eq!(greys[240..], [240; 16]);
    assert_eq!(lowered(&[]), []);
}

/// Samples, which have greys up to 255, of every side: what is written has as many bytes, Map Text reads the lowered
/// greys back, and a second time nothing changes (S 9.2, S 15.10).
#[test]
fn samples_of_every_side() {
    for side in SIDES {
        for seed in [0, 1, 7, u32::MAX] {
            let mut greys = maps::generated(seed, cell_count(side));
            greys[cell_count(side) - 1] = 255;
            let (text, low) = (text_of(&greys), lowered(&greys));
            let (answer, left, written) = answered(&text, greys.len() + 2, text.len() + 5);
            assert_eq!(answer, Ok(text.len()));
            assert_eq!(left, [&low[..], &[99; 2]].concat());
            assert_eq!(written, [&text_of(&low)[..], b"#####"].concat());
            assert!(greys.iter().zip(&low).all(|(grey, low)| low == grey || (*low == 240 && *grey > 240)));

            let written = &written[..text.len()];
            let mut read = vec![99; greys.len()];
            assert_eq!(map_text(&text, &mut read), Err(Refusal::HighGrey));
            assert_eq!(map_text(written, &mut read), Ok(side));
            assert_eq!(read, low);
            assert_eq!(convert(&text), written);
            assert_eq!(convert(written), written);
        }
    }
}

/// A text without a grey above 240 is copied byte for byte (S 15.10).
#[test]
fn copied() {
    for side in SIDES {
        for name in maps::NAMES {
            let greys = maps::named(name, side);
            let text = text_of(&greys);
            assert_eq!(answered(&text, greys.len(), text.len()), (Ok(text.len()), greys, text.clone()));
            assert_eq!(convert(&text), text);
        }
    }
}

/// The refusals of Map Text but for 12, in its order, then 8: of any that fail, the first is told (S 5.2).
#[test]
fn refusals_in_order() {
    for side in SIDES {
        let cells = cell_count(side);
        for grey in [0, 240, 241, 255] {
            let text = text_of(&vec![grey; cells]);
            let (whole, less) = (text.len(), text.len() - 1);
            assert_eq!(number(&text, cells, whole), 0);
            assert_eq!(number(&text, cells + 1, whole + 1), 0);
            for short in [0, 1, less] {
                assert_eq!(number(&text, cells, short), 8);
                assert_eq!(number(&text, cells - 1, short), 2);
                assert_eq!(number(&text[..less], cells, short), 7);
                assert_eq!(number(&text[..less], cells - 1, short), 2);
            }
            for wrong in [&text[..less], &[&text[..], b"\n"].concat(), &[&text[..], b"0"].concat()] {
                assert_eq!(number(wrong, cells, whole + 9), 7);
                assert_eq!(number(wrong, cells - 1, whole + 9), 2);
            }
            for (line, refused) in [("3\n", 1), ("257\n", 1), ("0\n", 1), ("02\n", 7), ("x\n", 7), ("1000\n", 7)] {
                let wrong = [line.as_bytes(), &text].concat();
                assert_eq!(number(&wrong, cells, whole), refused);
                assert_eq!(number(&wrong, 0, 0), refused);
            }
        }
    }
    assert_eq!(number(b"", 0, 0), 7);
    assert_eq!(number(b"2\n0,0\n0,256\n", 4, 0), 7);
    assert_eq!(number(b"2\n255,255\n255,255\n", 4, 17), 8);
}

/// Whatever Lower Text takes, Map Text takes but for 12; and what Lower Text then writes, Map Text takes (S 15.10).
#[test]
fn beside_map_text() {
    let bits = maps::generated(3, 200_000);
    let mut bits = bits.iter().map(|byte| usize::from(*byte));
    let mut pick = |count: usize| bits.next().unwrap() % count;
    let mut taken = [0; 3];
    for _ in 0..20_000 {
        let mut text = text_of(&[0; 4].map(|_: u8| [0, 9, 239, 240, 241, 250, 255][pick(7)]));
        for _ in 0..pick(3) {
            let place = pick(text.len());
            text[place] = b"0123456789,\n"[pick(12)];
        }
        let (answer, low, written) = answered(&text, 4, text.len());
        let mut read = [99; 4];
        let by_map_text = map_text(&text, &mut read).map_err(Refusal::number);
        match answer {
            Err(refused) => {
                assert_eq!(by_map_text, Err(refused));
                taken[0] += 1;
            }
            Ok(length) => {
                assert_eq!(length, text.len());
                let high = written != text;
                assert_eq!(by_map_text, if high { Err(12) } else { Ok(2) });
                assert_eq!(map_text(&written, &mut read), Ok(2));
                assert_eq!(read, low[..]);
                taken[1 + usize::from(high)] += 1;
            }
        }
    }
    assert!(taken.iter().all(|times| *times > 900), "{taken:?}");
}

/// The program has room for every side, and longer inputs are no map texts (S 14.4).
#[test]
fn the_program() {
    let longest = text_of(&[255; 65_536]);
    assert_eq!(longest.len(), 262_148);
    assert_eq!(convert(&longest), text_of(&[240; 65_536]));
    assert_eq!(convert(&[&longest[..], b"\n"].concat()), b"refused,7\n");
    assert_eq!(convert(&[&longest[..], &longest].concat()), b"refused,7\n");
    assert_eq!(convert(&[b'1'; 300_000]), b"refused,7\n");
    assert_eq!(convert(&[b"3\n", &[b'1'; 300_000][..]].concat()), b"refused,1\n");
    for text in ["", "x", "2", "02\n", "2\n", "2\n0,0\n0,256\n", "2\n255,255\n255,255", "256\n0,0\n"] {
        assert_eq!(convert(text.as_bytes()), b"refused,7\n");
    }
    for text in ["0\n", "1\n", "3\n", "257\n", "512\n", "999\nx"] {
        assert_eq!(convert(text.as_bytes()), b"refused,1\n");
    }
}

/// The sample that the program `sample` printed before, converted, is what it prints now, and `plate` takes it
/// (S 14.3, S 14.4).
#[test]
fn the_older_sample() {
    let older = text_of(&maps::generated(1, 1_024));
    assert_eq!(plate(&older), b"refused,12\n");
    assert_eq!(convert(&older), sample_text());
    assert!(!plate(&convert(&older)).starts_with(b"refused"));
}

/// How many aligned squares of side s have a hole in every cell.
fn full_squares(side: usize, serials: &[u32], s: usize) -> usize {
    let burnt = |row: usize, column: usize| serials[row * side + column] != 0;
    let full = |a: usize, b: usize| (0..s).all(|i| (0..s).all(|j| burnt(a * s + i, b * s + j)));
    (0..side / s).map(|a| (0..side / s).filter(|b| full(a, *b)).count()).sum()
}

/// A map of side 2 may still be burnt in every cell, and so may small squares of larger maps (S 15.8).
#[test]
fn a_flat_map_has_full_squares() {
    for (side, dots, squares) in [(2, 4, vec![1]), (4, 15, vec![3, 0]), (16, 241, vec![49, 1, 0, 0])] {
        let mut buffers = Buffers::new(side).unwrap();
        let start = buffers.load(side, PLAIN, &vec![240; cell_count(side)]).progress;
        assert_eq!(buffers.advance(start, u32::MAX).progress.dots, dots);
        let counted = (1..=squares.len()).map(|k| full_squares(side as usize, &buffers.serials, 1 << k));
        assert_eq!(counted.collect::<Vec<_>>(), squares);
    }
}
