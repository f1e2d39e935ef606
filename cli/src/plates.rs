//! `rulmedei compare` and `rulmedei shelf`: burnt plates in order. A plate is given as its drill list, or as the map
//! that it is burnt from, to the end and on plain cloth.

use std::ffi::OsStr;
use std::path::PathBuf;

use rulmedei::{compare, shelf, Compared, PLAIN};

use crate::arguments::{Arguments, Takes};
use crate::engine::Sheet;
use crate::failure::Failure;
use crate::files::{self, Input};
use crate::lists;
use crate::maps::Map;

pub const COMPARE: Takes = Takes { valued: &["-o"], plain: &[], files: (2, 2) };
pub const SHELF: Takes = Takes { valued: &["-o"], plain: &[], files: (1, usize::MAX) };

/// The side and the serial sheet of a plate.
struct Plate {
    name: String,
    side: u32,
    serials: Vec<u32>,
}

pub fn run_compare(arguments: &Arguments) -> Result<Vec<u8>, Failure> {
    let plates = read_all(&arguments.files)?;
    let (left, right) = (&plates[0], &plates[1]);
    let compared = compare(left.side, &left.serials, &right.serials);
    let answer = match compared.map_err(|refusal| Failure::by_engine(&left.name, refusal))? {
        Compared::Before => "before\n".to_string(),
        Compared::BeforeAt { row, column } => format!("before,{row},{column}\n"),
        Compared::Same => "same\n".to_string(),
        Compared::AfterAt { row, column } => format!("after,{row},{column}\n"),
        Compared::After => "after\n".to_string(),
    };
    Ok(answer.into_bytes())
}

pub fn run_shelf(arguments: &Arguments) -> Result<Vec<u8>, Failure> {
    let plates = read_all(&arguments.files)?;
    let serials: Vec<u32> = plates.iter().flat_map(|plate| plate.serials.iter().copied()).collect();
    let mut numbers = vec![0; plates.len()];
    let done = shelf(plates[0].side, plates.len() as u32, &serials, &mut numbers);
    done.map_err(|refusal| Failure::by_engine("the shelf", refusal))?;
    let name = |number: &u32| arguments.files[*number as usize].as_os_str().as_encoded_bytes();
    Ok(numbers.iter().flat_map(|number| [name(number), b"\n"].concat()).collect())
}

/// The plates, which must be of one side. Standard input is read once.
fn read_all(files: &[PathBuf]) -> Result<Vec<Plate>, Failure> {
    if files.iter().filter(|file| file.as_os_str() == OsStr::new("-")).count() > 1 {
        return Err(Failure::Usage("standard input can be one plate only".to_string()));
    }
    let plates: Vec<Plate> = files.iter().map(read).collect::<Result<_, _>>()?;
    match plates.iter().find(|plate| plate.side != plates[0].side) {
        Some(other) => {
            let (first, name) = (&plates[0], &other.name);
            Err(Failure::Refused(format!(
                "{name}: a plate of side {}, and {} has {}",
                other.side, first.name, first.side
            )))
        }
        None => Ok(plates),
    }
}

fn read(file: &PathBuf) -> Result<Plate, Failure> {
    let input = files::read(Some(file))?;
    if is_list(&input) {
        let (side, serials) = lists::read(&input)?;
        return Ok(Plate { name: input.name, side, serials });
    }
    let map = Map::of(&input, false)?;
    let sheet = Sheet::one_head(&map, PLAIN, u32::MAX).map_err(|refusal| map.refused(refusal))?;
    Ok(Plate { name: map.name, side: map.side, serials: sheet.serials })
}

/// A drill list has a comma on its first line, and a map text has none there.
fn is_list(input: &Input) -> bool {
    input.bytes.iter().take_while(|byte| **byte != b'\n').any(|byte| *byte == b',')
}
