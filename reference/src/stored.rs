//! The stored files: what the reference gives for the named maps, to be matched by others.

use std::fmt::Display;

use crate::answers::Refusal;
use crate::by_quarters::to_rows;
use crate::case_text::{joined, InputAndOutput};
use crate::convert::convert;
use crate::knit::{PLAIN, RIBBED};
use crate::map_text::write_map_text;
use crate::maps::{generated, named, sampled, NAMES};
use crate::measures::levels;
use crate::plate::{plate, two_heads_text};
use crate::quality::quality_csv;
use crate::quote::quote;
use crate::run::{run, run_two_heads, Buffers, Run};
use crate::run_cases;
use crate::sample::sample_text;
use crate::samples::{samples, sketched, SIDE};
use crate::shape::SIDES;
use crate::shelf_cases;
use crate::sketch::sketch;
use crate::sketch_quote::write_sketch;
use crate::stage_cases;
use crate::survey_cases;
use crate::text_cases;

/// The maps whose runs on ribbed cloth are stored.
pub const RIBBED_NAMES: [&str; 4] = ["flat-128", "gradient-diagonal", "hot-rim", "random"];

/// The sides and the maps whose runs with two heads are stored, on either cloth.
pub const TWO_HEADS_SIDES: [u32; 5] = [16, 32, 64, 128, 256];
pub const TWO_HEADS_NAMES: [&str; 5] = ["flat-1", "flat-128", "flat-240", "hot-rim", "random"];

/// All stored files, each with its path from the top of the repository: what larger maps are matched against.
pub fn files() -> Result<Vec<(String, Vec<u8>)>, Refusal> {
    let mut files = vec![
        ("vectors/runs.csv".to_string(), runs_csv(PLAIN, &NAMES)?.into_bytes()),
        ("vectors/ribbed.csv".to_string(), runs_csv(RIBBED, &RIBBED_NAMES)?.into_bytes()),
        ("vectors/two-heads.csv".to_string(), two_heads_csv()?.into_bytes()),
        ("vectors/quality.csv".to_string(), quality_csv()?.into_bytes()),
    ];
    for side in [2, 4, 8] {
        files.push((format!("vectors/side-{side}.txt"), texts_and_lists(side)?));
    }
    let expected = "crates/definition/specs/Expected.antt".to_string();
    files.push((expected, expected_values()?.into_bytes()));
    files.extend(program_files("survey_cases", survey_cases::input_and_output()?));
    files.extend(program_files("run_cases", run_cases::input_and_output()?));
    files.extend(program_files("stage_cases", stage_cases::input_and_output()?));
    files.extend(program_files("text_cases", text_cases::input_and_output()?));
    files.extend(program_files("shelf_cases", shelf_cases::input_and_output()?));
    files.extend(sample_files());
    files.extend(program_files("convert", stored_text()));
    // the program crate `sample` reads no input
    files.push(("crates/sample/stdout".to_string(), sample_text()));
    Ok(files)
}

/// The two files of a program crate.
fn program_files(name: &str, (input, output): InputAndOutput) -> [(String, Vec<u8>); 2] {
    [(format!("crates/{name}/stdin"), input), (format!("crates/{name}/stdout"), output)]
}

/// The sample maps, and a sketch of the first. The first of them is also what the program crate `plate` is run on, the
/// second what `two_heads` is run on, the last one what `quote` is run on, for the page of level 3, and the sketch what
/// `sketch` is run on, for level 2.
fn sample_files() -> Vec<(String, Vec<u8>)> {
    let texts = samples().map(|(name, greys)| (name, write_map_text(SIDE, &greys)));
    let [(_, map), (_, shared), (_, quoted)] = &texts;
    let asked = [b"3\n", &quoted[..]].concat();
    let mut files = program_files("plate", (map.clone(), plate(map))).to_vec();
    files.extend(program_files("two_heads", (shared.clone(), two_heads_text(shared))));
    files.extend(program_files("quote", (asked.clone(), quote(&asked))));
    files.extend(texts.map(|(name, text)| (format!("samples/{name}.map"), text)));
    let (path, sketched) = sample_sketch();
    let asked = [b"2\n", &sketched[..]].concat();
    files.extend(program_files("sketch", (asked.clone(), sketch(&asked))));
    files.push((path, sketched));
    files
}

/// The first sample map as a sketch, each grey known to about 12.
fn sample_sketch() -> (String, Vec<u8>) {
    let [(name, greys), ..] = samples();
    let (lows, highs) = sketched(&greys, 12);
    (format!("samples/{name}.sketch"), write_sketch(SIDE, &lows, &highs))
}

/// What the program crate `convert` is run on: the sample that the program `sample` printed before its greys were
/// lowered; it comes out as that program prints it now.
fn stored_text() -> InputAndOutput {
    let text = write_map_text(32, &generated(1, 1_024));
    (text.clone(), convert(&text))
}

/// One line for each side and map on cloth of one knit: its figures, and checksums of what the run leaves, the pyramid
/// once row after row (`pyramid`) and once as it lies (`quarters`).
fn runs_csv(knit: u32, names: &[&str]) -> Result<String, Refusal> {
    let mut text = format!("{RUN_COLUMNS}\n");
    for side in SIDES {
        for name in names {
            let greys = named(name, side);
            text.push_str(&measured_line(name, &greys, &run(side, knit, &greys)?)?);
        }
    }
    Ok(text)
}

/// The same of runs with two heads, on either cloth, with the knit before each line; the top is the debt.
fn two_heads_csv() -> Result<String, Refusal> {
    let mut text = format!("knit,{RUN_COLUMNS}\n");
    for knit in [PLAIN, RIBBED] {
        for side in TWO_HEADS_SIDES {
            for name in TWO_HEADS_NAMES {
                let greys = named(name, side);
                text.push_str(&format!("{knit},"));
                text.push_str(&measured_line(name, &greys, &run_two_heads(side, knit, &greys)?)?);
            }
        }
    }
    Ok(text)
}

/// What stands in a line of a run.
const RUN_COLUMNS: &str = "side,map,grey_sum,dots,top,level0,level1,level2,level3,level4,level5,level6,level7,level8,\
                           pyramid,serials,order,list_length,list,quarters";

/// The line of a run, with the sums of Levels worked out, and with its ending.
fn measured_line(name: &str, greys: &[u8], run: &Run) -> Result<String, Refusal> {
    let levels = levels(run.progress.side, greys, &run.buffers.serials)?;
    Ok(run_line(name, greys, run, &levels) + "\n")
}

/// The line of a named map, from what a run of it leaves and the sums of Levels; without its ending.
pub fn run_line(name: &str, greys: &[u8], run: &Run, levels: &[u64; 9]) -> String {
    let grey_sum: u64 = greys.iter().map(|grey| u64::from(*grey)).sum();
    joined(&[
        run.progress.side.to_string(),
        name.to_string(),
        grey_sum.to_string(),
        run.progress.dots.to_string(),
        run.buffers.pyramid[0].to_string(),
        joined(levels),
        adler32(&lines(&to_rows(run.progress.side, &run.buffers.pyramid))).to_string(),
        adler32(&lines(&run.buffers.serials)).to_string(),
        adler32(&lines(&run.buffers.order)).to_string(),
        run.list.len().to_string(),
        adler32(&run.list).to_string(),
        adler32(&lines(&run.buffers.pyramid)).to_string(),
    ])
}

/// For each map of a side: a line with its name, its map text and its drill list on plain cloth.
fn texts_and_lists(side: u32) -> Result<Vec<u8>, Refusal> {
    let mut bytes = Vec::new();
    for name in NAMES {
        let greys = named(name, side);
        bytes.extend(format!("map,{name}\n").into_bytes());
        bytes.extend(write_map_text(side, &greys));
        bytes.extend(run(side, PLAIN, &greys)?.list);
    }
    Ok(bytes)
}

/// The values that a proof in another language compares with: three maps run to their end on plain cloth, and three on
/// ribbed.
fn expected_values() -> Result<String, Refusal> {
    let greys = sampled(7, 16);
    let halved: Vec<u8> = generated(8, 64).iter().map(|grey| grey / 2).collect();
    let flat = [240; 16];
    Ok(format!(
        "-- Written by the reference (`cargo run --release -- write` in reference/) and not to be edited:\n\
         -- three maps run to their end on plain cloth, side 4, side 8 and a flat one of side 4; then three on ribbed\n\
         -- cloth, side 2, side 4 and side 8.\n\
         use Rattle.std.specs.Prelude.{{List, [], ◌∷◌, ℕ, ℤ, pos, negsuc}}\n\
         \n\
         -- the map of side 4, and what Load and Advance leave: the order list, the serial sheet, the pyramid\n\
         -- row after row and by quarters; then the sums of Levels\n\
         {}\n\
         -- the map of side 8, likewise\n\
         {}\n\
         -- the flat map of side 4, where quarters and cells are equal, likewise\n\
         {}\n\
         -- ribbed: the map of side 2 with four greys of 128, and those of side 4 and side 8 above; of each the order\n\
         -- list, the serial sheet and the pyramid, likewise\n\
         {}\n\
         {}\n\
         {}",
        five_values("4", 4, &greys)?,
        five_values("8", 8, &halved)?,
        five_values("_flat4", 4, &flat)?,
        left_values("_ribbed2", &run(2, RIBBED, &[128; 4])?),
        left_values("_ribbed4", &run(4, RIBBED, &greys)?),
        left_values("_ribbed8", &run(8, RIBBED, &halved)?),
    ))
}

/// The five values of one run on plain cloth, their names ending alike, parted by empty lines: the greys, what the run
/// leaves, the sums of Levels.
fn five_values(ending: &str, side: u32, greys: &[u8]) -> Result<String, Refusal> {
    let run = run(side, PLAIN, greys)?;
    let values = [
        value(&format!("greys{ending}"), "ℕ", greys),
        left_values(ending, &run),
        value(&format!("levels{ending}"), "ℕ", &levels(side, greys, &run.buffers.serials)?),
    ];
    Ok(values.join("\n"))
}

/// The values that a run leaves, likewise, the pyramid row after row and, where that differs, by quarters.
fn left_values(ending: &str, run: &Run) -> String {
    let Buffers { pyramid, serials, order } = &run.buffers;
    let rows = to_rows(run.progress.side, pyramid);
    let mut values = vec![
        value(&format!("order{ending}"), "ℕ", order),
        value(&format!("serials{ending}"), "ℕ", serials),
        value(&format!("pyramid{ending}"), "ℤ", &integers(&rows)),
    ];
    if rows != *pyramid {
        values.push(value(&format!("quarters{ending}"), "ℤ", &integers(pyramid)));
    }
    values.join("\n")
}

/// One value: the line with its type, and its list in lines of at most six items.
fn value<T: Display>(name: &str, of: &str, items: &[T]) -> String {
    let mut list = String::new();
    for line in items.chunks(6) {
        for item in line {
            list.push_str(&format!("{item} ∷ "));
        }
        list = list.trim_end_matches(" ∷ ").to_string() + "\n    ∷ ";
    }
    format!("unfoldable pub {name} : List {of}\n{name} =\n    {list}[]\n")
}

/// Integers as that language writes them.
fn integers(numbers: &[i64]) -> Vec<String> {
    let written = |z: &i64| if *z >= 0 { format!("pos {z}") } else { format!("negsuc {}", -z - 1) };
    numbers.iter().map(written).collect()
}

/// Numbers in decimal, each followed by byte 10.
fn lines<T: Display>(numbers: &[T]) -> Vec<u8> {
    let mut text = String::new();
    for number in numbers {
        text.push_str(&format!("{number}\n"));
    }
    text.into_bytes()
}

/// The Adler-32 checksum of RFC 1950.
fn adler32(bytes: &[u8]) -> u32 {
    let (mut low, mut high) = (1, 0);
    for byte in bytes {
        low = (low + u32::from(*byte)) % 65_521;
        high = (high + low) % 65_521;
    }
    high * 65_536 + low
}
