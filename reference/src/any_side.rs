//! Maps of any of the eight sides, on plain cloth. `map NAME SIDE` prints the map text of a named map, `list` the drill
//! list of the map text on standard input, and `shelf FILE..` the plates of map texts in order. The library's examples
//! have to print the same.

use std::fs;
use std::io::{self, Read, Write};
use std::process::ExitCode;

use reference::{cell_count, compare, map_text, maps, power, shelf, write_map_text};
use reference::{Buffers, Compared, Progress, Refusal, PLAIN};

/// The cells of the largest map; and the longest line of a drill list, with its ending.
const CELLS: usize = 65_536;
const LINE: usize = "65536,255,255\n".len();

/// Prints what the words ask for.
pub fn any_side(words: &[&str]) -> Result<ExitCode, String> {
    let printed = match words {
        ["map", name, side] => named_text(name, side)?,
        ["list"] => read(io::stdin()).and_then(|text| list_of(&text).map_err(refused))?,
        ["shelf", files @ ..] => in_order(files)?.into_bytes(),
        _ => return Err("use: reference map NAME SIDE | list | shelf FILE..".to_string()),
    };
    io::stdout().write_all(&printed).map_err(|error| error.to_string())?;
    Ok(ExitCode::SUCCESS)
}

fn refused(refusal: Refusal) -> String {
    format!("refused, {}", refusal.number())
}

fn read(mut from: impl Read) -> Result<Vec<u8>, String> {
    let mut bytes = Vec::new();
    from.read_to_end(&mut bytes).map_err(|error| error.to_string())?;
    Ok(bytes)
}

/// The map text of a named map.
fn named_text(name: &str, side: &str) -> Result<Vec<u8>, String> {
    let known = side.parse().ok().filter(|side| power(*side).is_ok() && maps::NAMES.contains(&name));
    let side = known.ok_or(format!("no map {name} of side {side}"))?;
    Ok(write_map_text(side, &maps::named(name, side)))
}

/// The map of a text, run to its end: the record and the buffers.
fn finished(text: &[u8]) -> Result<(Progress, Buffers), Refusal> {
    let mut greys = vec![0; CELLS];
    let side = map_text(text, &mut greys)?;
    let mut buffers = Buffers::new(side)?;
    let loaded = buffers.load(side, PLAIN, &greys);
    loaded.status?;
    let advanced = buffers.advance(loaded.progress, u32::MAX);
    advanced.status?;
    Ok((advanced.progress, buffers))
}

/// The drill list of a map text.
fn list_of(text: &[u8]) -> Result<Vec<u8>, Refusal> {
    let (progress, buffers) = finished(text)?;
    let mut list = vec![0; LINE * (progress.dots as usize + 1)];
    let length = buffers.drill_list(progress, &mut list)?;
    list.truncate(length);
    Ok(list)
}

/// A line for each plate, in their order: its holes and its file, and whether it is the same as the one before.
fn in_order(files: &[&str]) -> Result<String, String> {
    let (mut side, mut plates, mut holes) = (2, Vec::new(), Vec::new());
    for file in files {
        let text = fs::read(file).map_err(|error| format!("{file}: {error}"))?;
        let (progress, buffers) = finished(&text).map_err(refused)?;
        if !plates.is_empty() && progress.side != side {
            return Err(format!("{file}: the side is {} and not {side}", progress.side));
        }
        side = progress.side;
        holes.push(progress.dots);
        plates.extend(buffers.serials);
    }
    let mut list = vec![0; files.len()];
    shelf(side, files.len() as u32, &plates, &mut list).map_err(refused)?;
    let plate = |number: u32| &plates[number as usize * cell_count(side)..][..cell_count(side)];
    let same = |place: usize| compare(side, plate(list[place - 1]), plate(list[place])) == Ok(Compared::Same);
    let mut lines = String::new();
    for (place, number) in list.iter().enumerate() {
        let note = if place > 0 && same(place) { ", the same" } else { "" };
        lines += &format!("{} holes, {}{note}\n", holes[*number as usize], files[*number as usize]);
    }
    Ok(lines)
}
