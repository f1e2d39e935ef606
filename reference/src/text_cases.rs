//! The cases of the program crate `text_cases`: texts for Map Text, most of them broken, Drill List on the maps that
//! are read, and Lower Text on every text.

use std::fmt::Display;

use crate::answers::{Progress, Refusal};
use crate::case_text::{self, fields, line, InputAndOutput, WIDE};
use crate::drill_list::list_room;
use crate::knit::{PLAIN, RIBBED};
use crate::lowering::lower_text;
use crate::map_text::{map_text, write_map_text};
use crate::maps::{generated, named};
use crate::run::{run, Buffers};
use crate::shape::cell_count;

/// One case: the text, the places lent of the greys buffer and of the output, which are the same for every call, the
/// number of what is damaged before Drill List, the knit that Load is given and the one that Drill List is given in its
/// record.
struct Case {
    text: Vec<u8>,
    greys: usize,
    output: usize,
    damage: u32,
    knit: u32,
    said: u32,
}

/// What every place of the greys buffer and of the output holds before the calls.
const BEFORE: (u8, u8) = (9, b'.');

/// The numbers of the damages; 0 is none.
const DAMAGES: u32 = 6;

/// The rows of the small map of side 2, and of that of side 4.
const ROWS_2: &str = "0,127\n128,240\n";
const ROWS_4: &str = "0,9,10,99\n100,127,128,199\n200,229,239,240\n1,20,64,234\n";

/// Standard input and standard output.
pub fn input_and_output() -> Result<InputAndOutput, Refusal> {
    case_text::input_and_output(&cases()?, written, answers)
}

/// Whole maps first, then all kinds of broken texts.
fn cases() -> Result<Vec<Case>, Refusal> {
    let mut cases = whole_maps()?;
    cases.extend(outputs()?);
    cases.extend(damages());
    cases.extend(greys_lengths());
    let texts = [truncated(), changed(), left_out(), doubled(), first_lines(), odd_greys(), layouts(), long_runs()];
    cases.extend(texts.concat().into_iter().map(small_buffers));
    cases.extend(ribbed()?);
    cases.extend(no_knits());
    cases.extend(high_greys());
    cases.extend(lowered_lengths());
    cases.extend(WIDE.into_iter().flat_map(wide_numbers));
    Ok(cases)
}

/// A text with a greys buffer of 18 places, which is enough for side 4, and an output that is enough for side 2.
fn small_buffers(text: Vec<u8>) -> Case {
    Case { text, greys: 18, output: 30, damage: 0, knit: PLAIN, said: PLAIN }
}

/// A named map with two spare places of greys, and so much room that any list of its side fits.
fn roomy(side: u32, name: &str) -> Case {
    let text = write_map_text(side, &named(name, side));
    let output = list_room(side).min(4_000);
    Case { text, greys: cell_count(side) + 2, output, damage: 0, knit: PLAIN, said: PLAIN }
}

/// The length of the list of a named map.
fn list_length(side: u32, knit: u32, name: &str) -> Result<usize, Refusal> {
    Ok(run(side, knit, &named(name, side))?.list.len())
}

/// Named maps of four sides, with buffers of just the needed length.
fn whole_maps() -> Result<Vec<Case>, Refusal> {
    let mut cases = Vec::new();
    for side in [2, 4, 8, 16] {
        for name in ["flat-0", "flat-128", "flat-240", "gradient-diagonal", "random"] {
            cases.push(Case { greys: cell_count(side), output: list_length(side, PLAIN, name)?, ..roomy(side, name) });
        }
    }
    Ok(cases)
}

/// Outputs that are too short, and ones that are longer than needed.
fn outputs() -> Result<Vec<Case>, Refusal> {
    let mut cases = Vec::new();
    for (side, name) in [(2, "flat-0"), (2, "random"), (4, "random"), (8, "random"), (16, "flat-240")] {
        let length = list_length(side, PLAIN, name)?;
        for output in [0, 1, length - 1, length + 1, length + 100] {
            cases.push(Case { output, ..roomy(side, name) });
        }
    }
    Ok(cases)
}

/// Every damage, on a plate with room for the list and on one with no output at all.
fn damages() -> Vec<Case> {
    let mut cases = Vec::new();
    for damage in 1..=DAMAGES {
        for side in [2, 8] {
            cases.push(Case { damage, ..roomy(side, "random") });
        }
        cases.push(Case { damage, output: 0, ..roomy(4, "random") });
    }
    cases.push(Case { damage: 2, ..roomy(2, "flat-240") });
    cases.push(Case { damage: 2, ..roomy(4, "flat-0") });
    cases
}

/// Greys buffers around the needed length; a side that there isn't comes before the buffer, and the buffer before the
/// rows.
fn greys_lengths() -> Vec<Case> {
    let mut cases = Vec::new();
    for side in [2, 4, 8, 16] {
        let cells = cell_count(side);
        for greys in [0, 1, cells - 1, cells, cells + 1] {
            cases.push(Case { greys, ..roomy(side, "random") });
        }
    }
    for text in ["3\n", "x\n", "", "0\n0,127\n", "2\n", "2\nx", "2\n0,127\n128,256\n", "256\n", "32\n1,2\n", "02\n"] {
        for greys in [0, 3, 4] {
            cases.push(Case { greys, ..small_buffers(text.into()) });
        }
    }
    cases
}

/// Ribbed maps, with all room and with an output that is one byte short; then a list that is asked for as of the other
/// knit, which is the same list, since the sheet is as sound.
fn ribbed() -> Result<Vec<Case>, Refusal> {
    let mut cases = Vec::new();
    for side in [2, 4, 8, 16] {
        let case = Case { knit: RIBBED, said: RIBBED, ..roomy(side, "random") };
        let output = list_length(side, RIBBED, "random")? - 1;
        cases.extend([Case { text: case.text.clone(), ..case }, Case { output, ..case }]);
    }
    cases.push(Case { knit: RIBBED, ..roomy(4, "random") });
    cases.push(Case { said: RIBBED, ..roomy(4, "random") });
    Ok(cases)
}

/// Numbers that are no knit in the record, alone and with every damage, with an output and without.
fn no_knits() -> Vec<Case> {
    let mut cases = Vec::new();
    for said in [2, u32::MAX] {
        for damage in 0..=DAMAGES {
            cases.push(Case { damage, said, ..roomy(4, "random") });
        }
        cases.push(Case { output: 0, said, ..roomy(4, "random") });
    }
    cases
}

/// So much more than a valid number: the knit that Load is given and the one in Drill List's record, the side on a
/// text's first line, and a grey.
fn wide_numbers(more: u32) -> Vec<Case> {
    let mut cases = Vec::new();
    for knit in [PLAIN, RIBBED] {
        cases.push(Case { knit: knit + more, said: knit, ..roomy(2, "random") });
        cases.push(Case { knit, said: knit + more, ..roomy(2, "random") });
    }
    cases.push(small_buffers(format!("{}\n{ROWS_2}", 2 + more).into_bytes()));
    cases.push(small_buffers(format!("2\n0,127\n128,{}\n", 240 + u64::from(more)).into_bytes()));
    cases
}

/// Greys above 240 in texts that fit the grammar, in the first cell, in the last and in all; then together with all
/// that Map Text looks at before: the first line, the side, the greys buffer, the rest of the text.
fn high_greys() -> Vec<Case> {
    let texts = [
        "2\n240,240\n240,240\n",
        "2\n241,240\n240,240\n",
        "2\n240,240\n240,241\n",
        "2\n255,255\n255,255\n",
        "2\n0,249\n250,9\n",
        "4\n0,9,10,99\n100,127,128,199\n200,229,239,240\n1,20,64,241\n",
        "4\n255,9,10,99\n100,127,242,199\n200,249,239,240\n1,20,254,234\n",
        "02\n241,240\n240,240\n",
        "3\n241,240\n240,240\n",
        "2\n241,240\n240,256\n",
        "2\n256,240\n240,241\n",
        "2\n241,240\n240,240",
        "2\n241,240\n240,240\n\n",
        "2\n241,240\n240\n",
        "2\n241,255\n",
        "2\n0241,240\n240,240\n",
    ];
    let mut cases: Vec<Case> = texts.map(|text| small_buffers(text.into())).into();
    for greys in [0, 3, 4] {
        cases.push(Case { greys, ..small_buffers("2\n241,240\n240,255\n".into()) });
        cases.push(Case { greys, ..small_buffers("2\n241,240\n240,256\n".into()) });
    }
    cases
}

/// Samples with greys up to 255, as earlier versions stored them, with outputs around the length of the text that Lower
/// Text writes, which is as long as the text it reads; and greys buffers around the needed length.
fn lowered_lengths() -> Vec<Case> {
    let stored = |side: u32, seed: u32| {
        let mut greys = generated(seed, cell_count(side));
        greys[0] = 255;
        let text = write_map_text(side, &greys);
        Case { output: text.len(), text, greys: greys.len(), damage: 0, knit: PLAIN, said: PLAIN }
    };
    let mut cases = Vec::new();
    for side in [2, 4, 8] {
        let length = stored(side, 5).output;
        for output in [0, length - 1, length, length + 1] {
            cases.push(Case { output, ..stored(side, 5) });
        }
        let cells = cell_count(side);
        cases.push(Case { greys: cells - 1, ..stored(side, 6) });
        cases.push(Case { greys: cells + 1, output: length + 9, ..stored(side, 6) });
    }
    cases.push(stored(16, 7));
    cases
}

/// The text of the small map of side 2.
fn small() -> Vec<u8> {
    format!("2\n{ROWS_2}").into_bytes()
}

/// The beginnings of the texts of the two small maps, from the empty one to the one without the last line end; and
/// both texts whole.
fn truncated() -> Vec<Vec<u8>> {
    let mut texts = Vec::new();
    for text in [small(), format!("4\n{ROWS_4}").into_bytes()] {
        for length in 0..=text.len() {
            texts.push(text[..length].to_vec());
        }
    }
    texts
}

/// The small text with each byte changed to others.
fn changed() -> Vec<Vec<u8>> {
    let mut texts = Vec::new();
    for place in 0..small().len() {
        for byte in [b'0', b'7', b',', b'\n', b'\r', b' ', b'-', b'+', 0, 255] {
            if small()[place] != byte {
                texts.push(with(place..place + 1, &[byte]));
            }
        }
    }
    texts
}

/// The small text without each of its bytes.
fn left_out() -> Vec<Vec<u8>> {
    (0..small().len()).map(|place| with(place..place + 1, &[])).collect()
}

/// The small text with each of its bytes twice.
fn doubled() -> Vec<Vec<u8>> {
    (0..small().len()).map(|place| with(place..place, &[small()[place]])).collect()
}

/// The small text with other bytes for some of its own.
fn with(places: std::ops::Range<usize>, bytes: &[u8]) -> Vec<u8> {
    let mut text = small();
    text.splice(places, bytes.iter().copied());
    text
}

/// First lines that name no side, or one that the rows don't have.
fn first_lines() -> Vec<Vec<u8>> {
    let lines = [
        "",
        "0",
        "1",
        "3",
        "4",
        "5",
        "12",
        "64",
        "256",
        "257",
        "512",
        "998",
        "999",
        "1000",
        "2000",
        "02",
        "002",
        "00",
        "000",
        "65538",
        "4294967295",
        "4294967296",
        "4294967298",
        "18446744073709551618",
        "2 ",
        " 2",
        "2\t",
        "+2",
        "-2",
        "2,",
        ",2",
        "2.0",
        "0x2",
        "2e0",
        "two",
        "2\r",
        "2\u{0}",
        "\u{feff}2",
        "\u{ff12}",
        "2\n",
        "2,2",
    ];
    lines.map(|first| format!("{first}\n{ROWS_2}").into_bytes()).to_vec()
}

/// Other texts in the place of a grey: the first of the map, and the last.
fn odd_greys() -> Vec<Vec<u8>> {
    let greys = [
        "",
        "00",
        "000",
        "01",
        "0255",
        "240",
        "241",
        "254",
        "255",
        "256",
        "257",
        "260",
        "300",
        "999",
        "1000",
        "2550",
        "4294967296",
        "4294967551",
        "18446744073709551616",
        "18446744073709551871",
        "-1",
        "+1",
        "-0",
        " 1",
        "1 ",
        "1.",
        "1.0",
        "0x1",
        "1e1",
        "a",
        "\u{661}",
        "\"1\"",
        "1;2",
    ];
    greys.into_iter().flat_map(odd_grey).collect()
}

fn odd_grey(grey: &str) -> [Vec<u8>; 2] {
    [format!("2\n{grey},127\n128,240\n").into_bytes(), format!("2\n0,127\n128,{grey}\n").into_bytes()]
}

/// Rows too many or too few, too long or too short, other line ends and other marks between the greys.
fn layouts() -> Vec<Vec<u8>> {
    let texts = [
        "\n",
        "\n\n\n",
        ",",
        ",\n,\n",
        "2\r\n0,127\r\n128,240\r\n",
        "2\n0,127\r\n128,240\n",
        "2\r0,127\r128,240\r",
        "2\n0,127\n",
        "2\n0,127\n128,240\n1,2\n",
        "2\n0,127\n128,240\n\n",
        "2\n0,127\n128,240\n ",
        "2\n0,127\n128,240\n0",
        "2\n0,127\n128,240\n\u{0}",
        "2\n0,127\n128,240\n2\n0,127\n128,240\n",
        "2\n0\n128,240\n",
        "2\n0,127,3\n128,240\n",
        "2\n0,127\n128\n",
        "2\n0,127\n128,240,3\n",
        "2\n\n128,240\n",
        "2\n0,127\n\n128,240\n",
        "2\n0,127\n\n",
        "2\n\n\n",
        "2\n,\n,\n",
        "2\n0,127,\n128,240\n",
        "2\n,0,127\n128,240\n",
        "2\n0,,127\n128,240\n",
        "2\n0,127,128,240\n",
        "2\n0\n127\n128\n240\n",
        "2\n0 127\n128 240\n",
        "2\n0, 127\n128, 240\n",
        "2\n0\t127\n128\t240\n",
        "2\n0;127\n128;240\n",
        "2\n0,127 \n128,240\n",
        "0,127\n128,240\n",
        "2,0,127\n128,240\n",
        "2\n\n0,127\n128,240\n",
        "\n2\n0,127\n128,240\n",
        " \n2\n0,127\n128,240\n",
        "4\n0,9,10,99\n100,127,128,199\n200,229,239,240\n",
        "4\n0,9,10,99\n100,127,128,199\n200,229,239\n1,20,64,234\n",
        "4\n0,9,10,99\n100,127,128,199\n200,229,239,240\n1,20,64,234,2\n",
    ];
    let mut texts: Vec<Vec<u8>> = texts.map(|text| text.into()).to_vec();
    texts.push(format!("2\n{ROWS_4}").into_bytes());
    texts
}

/// Numbers of very many digits, and as many commas and line ends.
fn long_runs() -> Vec<Vec<u8>> {
    vec![
        "2".repeat(3_000).into_bytes(),
        format!("{}\n{ROWS_2}", "2".repeat(1_000)).into_bytes(),
        format!("{}2\n{ROWS_2}", "0".repeat(1_000)).into_bytes(),
        format!("2{}\n{ROWS_2}", "0".repeat(1_000)).into_bytes(),
        format!("2\n{},127\n128,240\n", "1".repeat(4_000)).into_bytes(),
        format!("2\n{}1,127\n128,240\n", "0".repeat(4_000)).into_bytes(),
        format!("2\n0,127\n128,{}\n", "9".repeat(300)).into_bytes(),
        format!("2\n0,127\n128,{}", "9".repeat(300)).into_bytes(),
        format!("2\n0,127{}\n128,240\n", ",0".repeat(1_000)).into_bytes(),
        format!("2\n0,127\n128,240{}", "\n".repeat(1_000)).into_bytes(),
        "\n".repeat(1_000).into_bytes(),
        ",".repeat(1_000).into_bytes(),
        vec![0; 300],
        vec![255; 300],
    ]
}

/// A case as the program reads it: a line with the text's length, the two lengths lent, the damage and the two knits,
/// and then the text itself.
fn written(case: &Case) -> Vec<u8> {
    let numbers = [case.damage, case.knit, case.said].map(|number| number as usize);
    let mut bytes = line(&[[case.text.len(), case.greys, case.output], numbers].concat()).into_bytes();
    bytes.extend(&case.text);
    bytes
}

/// What Map Text answers, the whole greys buffer after it, Drill List where a map was read, and what Lower Text
/// answers.
fn answers(case: &Case) -> Result<Vec<u8>, Refusal> {
    let mut greys = vec![BEFORE.0; case.greys];
    let read = map_text(&case.text, &mut greys);
    let mut bytes = answer("side", read).into_bytes();
    bytes.extend(format!("greys{}\n", fields(&greys)).into_bytes());
    if let Ok(side) = read {
        bytes.extend(list_answers(case, side, &greys)?);
    }
    bytes.extend(lowered_answers(case));
    Ok(bytes)
}

/// What Lower Text answers on buffers of its own, the whole greys buffer after it, the text that it wrote, and the
/// count of places of the output that hold what they held before, from the text's end on.
fn lowered_answers(case: &Case) -> Vec<u8> {
    let mut greys = vec![BEFORE.0; case.greys];
    let mut out = vec![BEFORE.1; case.output];
    let lowered = lower_text(&case.text, &mut greys, &mut out);
    let mut bytes = answer("lowered", lowered).into_bytes();
    bytes.extend(format!("greys{}\n", fields(&greys)).into_bytes());
    bytes.extend(written_and_spare(&out, lowered.unwrap_or(0)));
    bytes
}

/// What a call wrote, up to its length, and a line with the count of later places that hold what they held before.
fn written_and_spare(out: &[u8], length: usize) -> Vec<u8> {
    let spare = out[length..].iter().filter(|byte| **byte == BEFORE.1).count();
    [&out[..length], format!("spare,{spare}\n").as_bytes()].concat()
}

/// What Drill List answers on the finished plate, or on none where Load refuses the knit; the list itself, and the
/// count of places of the output that hold what they held before, from the list's end on.
fn list_answers(case: &Case, side: u32, greys: &[u8]) -> Result<Vec<u8>, Refusal> {
    let mut buffers = Buffers::new(side)?;
    let loaded = buffers.load(side, case.knit, greys);
    let end = buffers.advance(loaded.progress, u32::MAX);
    let mut out = vec![BEFORE.1; case.output];
    let record = Progress { knit: case.said, ..end.progress };
    let listed = damaged_list(case.damage, record, buffers, &mut out);
    let mut bytes = answer("list", listed).into_bytes();
    bytes.extend(written_and_spare(&out, listed.unwrap_or(0)));
    Ok(bytes)
}

/// Drill List after a damage: 1 adds 1 to the pyramid's top, 2 says one hole more than were made, 3 says side 3, and
/// 4, 5 and 6 lend one place less of the pyramid, the serial sheet and the order list.
fn damaged_list(damage: u32, record: Progress, whole: Buffers, out: &mut [u8]) -> Result<usize, Refusal> {
    let mut progress = record;
    let mut buffers = whole;
    match damage {
        1 => buffers.pyramid[0] += 1,
        2 => progress.dots += 1,
        3 => progress.side = 3,
        4 => drop(buffers.pyramid.pop()),
        5 => drop(buffers.serials.pop()),
        6 => drop(buffers.order.pop()),
        _ => (),
    }
    buffers.drill_list(progress, out)
}

/// A line with what a call returns, or with its refusal.
fn answer<T: Display>(name: &str, value: Result<T, Refusal>) -> String {
    match value {
        Ok(value) => format!("{name},{value}\n"),
        Err(why) => format!("refused,{}\n", why.number()),
    }
}
