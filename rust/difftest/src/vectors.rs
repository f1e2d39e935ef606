//! The library on the maps of `vectors/runs.csv`, on plain cloth, of `vectors/ribbed.csv`, and of
//! `vectors/two-heads.csv`, on both: each line made anew from what the library's calls leave.

use reference::maps::{named, NAMES};
use reference::stored::{run_line, RIBBED_NAMES, TWO_HEADS_NAMES, TWO_HEADS_SIDES};
use reference::{Buffers, Progress, Run, PLAIN, RIBBED, SIDES};
use rulmedei::list_room;

use crate::library::{self, Outcome};

const RUNS: &str = include_str!("../../../vectors/runs.csv");
const RIBBED_RUNS: &str = include_str!("../../../vectors/ribbed.csv");
const TWO_HEADS_RUNS: &str = include_str!("../../../vectors/two-heads.csv");

/// A stored map: its side, the knit of its cloth and its name.
type Map = (u32, u32, &'static str);

/// Compares every line of the three files and returns how many each has, or says which line differs (S 15.1).
pub fn compare() -> Result<[usize; 3], String> {
    let one_head = |knit, names: &[&'static str]| maps(&[knit], &SIDES, names);
    let heads = maps(&[PLAIN, RIBBED], &TWO_HEADS_SIDES, &TWO_HEADS_NAMES);
    let plain = compare_file(one_head(PLAIN, &NAMES), RUNS, line_of);
    let ribbed = compare_file(one_head(RIBBED, &RIBBED_NAMES), RIBBED_RUNS, line_of);
    let heads = compare_file(heads, TWO_HEADS_RUNS, heads_line_of);
    Ok([
        plain.map_err(|what| format!("vectors/runs.csv{what}"))?,
        ribbed.map_err(|what| format!("vectors/ribbed.csv{what}"))?,
        heads.map_err(|what| format!("vectors/two-heads.csv{what}"))?,
    ])
}

/// The maps of a file in the order of its lines.
fn maps(knits: &[u32], sides: &[u32], names: &[&'static str]) -> Vec<Map> {
    let mut maps = Vec::new();
    for knit in knits {
        for side in sides {
            maps.extend(names.iter().map(|name| (*side, *knit, *name)));
        }
    }
    maps
}

/// Compares the lines of one file with those that are made of its maps.
fn compare_file(maps: Vec<Map>, text: &str, made: fn(Map) -> Result<String, String>) -> Result<usize, String> {
    let mut stored = text.lines().enumerate().skip(1);
    for map in &maps {
        let (place, line) = stored.next().ok_or(format!(": no line for {map:?}"))?;
        compare_line(line, made(*map)).map_err(|what| format!(":{}: {what}", place + 1))?;
    }
    match stored.next() {
        Some((place, _)) => Err(format!(":{}: the line of no map", place + 1)),
        None => Ok(maps.len()),
    }
}

fn compare_line(stored: &str, made: Result<String, String>) -> Result<(), String> {
    let made = made?;
    if made == stored {
        return Ok(());
    }
    Err(format!("differs\nstored  {stored}\nlibrary {made}"))
}

/// The line that the library's calls give.
fn line_of((side, knit, name): Map) -> Result<String, String> {
    let greys = named(name, side);
    measured(name, &greys, run(side, knit, &greys)?)
}

/// The same with two heads, behind the knit.
fn heads_line_of((side, knit, name): Map) -> Result<String, String> {
    let greys = named(name, side);
    Ok(format!("{knit},{}", measured(name, &greys, run_two_heads(side, knit, &greys)?)?))
}

/// A run's line, with the sums of Levels.
fn measured(name: &str, greys: &[u8], run: Run) -> Result<String, String> {
    let sums = done("levels", library::levels(run.progress.side, greys, &run.buffers.serials))?;
    let levels = sums.values.try_into().map_err(|_| "levels gives other than nine sums".to_string())?;
    Ok(run_line(name, greys, &run, &levels))
}

/// Load, one Advance with the largest budget, Drill List.
fn run(side: u32, knit: u32, greys: &[u8]) -> Result<Run, String> {
    let mut buffers = buffers(side)?;
    let Buffers { pyramid, serials, order } = &mut buffers;
    let loaded = done("load", library::load(side, knit, greys, pyramid, serials, order))?;
    let after = done("advance", library::advance(loaded.progress(), u32::MAX, pyramid, serials, order))?;
    listed(after.progress(), buffers)
}

/// Two Heads, Drill List.
fn run_two_heads(side: u32, knit: u32, greys: &[u8]) -> Result<Run, String> {
    let mut buffers = buffers(side)?;
    let Buffers { pyramid, serials, order } = &mut buffers;
    let end = done("two_heads", library::two_heads(side, knit, greys, pyramid, serials, order))?;
    listed(end.progress(), buffers)
}

fn buffers(side: u32) -> Result<Buffers, String> {
    Buffers::new(side).map_err(|refusal| format!("refused, {}", refusal.number()))
}

fn listed(progress: Progress, buffers: Buffers) -> Result<Run, String> {
    let Buffers { pyramid, serials, order } = &buffers;
    let mut list = vec![0; list_room(progress.side)];
    let length = done("drill_list", library::drill_list(progress, pyramid, serials, order, &mut list))?;
    list.truncate(length.values[0] as usize);
    Ok(Run { progress, buffers, list })
}

/// The outcome, if its code is 0.
fn done(call: &str, outcome: Outcome) -> Result<Outcome, String> {
    if outcome.code == 0 {
        return Ok(outcome);
    }
    Err(format!("{call} returns {}", outcome.code))
}
