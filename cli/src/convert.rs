//! `rulmedei convert`: a picture or a stored map text as a map text that passes: each grey above 240 becomes 240.

use rulmedei::{cells, lower_text};

use crate::arguments::{Arguments, Takes};
use crate::failure::Failure;
use crate::files::{self, Input};
use crate::maps;

pub const TAKES: Takes = Takes { valued: &["-o"], plain: &["--invert"], files: (0, 1) };

pub fn run(arguments: &Arguments) -> Result<Vec<u8>, Failure> {
    let mut input = files::read(arguments.files.first())?;
    if let Some((side, greys)) = maps::picture(&input, arguments.has("--invert"))? {
        input = Input { name: input.name, bytes: maps::text_of(side, &greys) };
    }
    let (mut greys, mut text) = (vec![0; cells(256)], vec![0; input.bytes.len()]);
    let length = lower_text(&input.bytes, &mut greys, &mut text);
    text.truncate(length.map_err(|refusal| maps::text_refused(&input, refusal))?);
    Ok(text)
}
