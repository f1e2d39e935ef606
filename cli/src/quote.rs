//! `rulmedei quote`: the panels of the finished map with their holes and caps, as the engine's quote page, as CSV, or
//! as a page to print and sign.

use crate::arguments::{Arguments, Takes};
use crate::engine::{knit, page, Panel, Sheet};
use crate::failure::Failure;
use crate::html;
use crate::maps::Map;

pub const TAKES: Takes = Takes { valued: &["-f", "-o", "--level", "--knit"], plain: &["--invert"], files: (0, 1) };

pub fn run(arguments: &Arguments) -> Result<Vec<u8>, Failure> {
    let format = arguments.one_of("-f", &["text", "csv", "html"])?;
    let knit = knit(arguments)?;
    arguments.number("--level")?;
    let map = Map::given(arguments)?;
    let level = map.level(arguments)?;
    let sheet = Sheet::one_head(&map, knit, u32::MAX).map_err(|refusal| map.refused(refusal))?;
    let (text, panels) = page(&map, &sheet.serials, level).map_err(|refusal| map.refused(refusal))?;
    match format {
        "text" => Ok(text),
        "csv" => Ok(csv(&panels).into_bytes()),
        _ => Ok(html::page(&map, knit, level, &sheet, &panels).into_bytes()),
    }
}

fn csv(panels: &[Panel]) -> String {
    let lines = panels.iter().map(|panel| {
        let Panel { row, column, grey, holes, cap } = panel;
        format!("{row},{column},{grey},{holes},{cap}\n")
    });
    "row,column,grey_sum,holes,cap\n".to_string() + &lines.collect::<String>()
}
