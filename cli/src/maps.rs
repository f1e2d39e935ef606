//! A map, from a map text or a picture, told apart by their first bytes.

use rulmedei::{cells, map_text, Refusal, HIGHEST};

use crate::arguments::Arguments;
use crate::failure::Failure;
use crate::files::{self, Input};
use crate::pgm::{self, Kind};
use crate::places;

/// What to do about a grey above 240.
const HINT: &str = "'rulmedei convert' lowers such greys";

/// A map whose greys fit in a byte each; whether one is above 240 the engine says.
pub struct Map {
    /// The name of its file, in messages.
    pub name: String,
    pub side: u32,
    pub greys: Vec<u8>,
}

impl Map {
    /// The map that a subcommand is given.
    pub fn given(arguments: &Arguments) -> Result<Map, Failure> {
        Map::of(&files::read(arguments.files.first())?, arguments.has("--invert"))
    }

    /// The map that a file has.
    pub fn of(input: &Input, invert: bool) -> Result<Map, Failure> {
        if let Some((side, greys)) = picture(input, invert)? {
            return Ok(Map { name: input.name.clone(), side, greys });
        }
        let mut greys = vec![0; cells(256)];
        let side = map_text(&input.bytes, &mut greys).map_err(|refusal| text_refused(input, refusal))?;
        greys.truncate(cells(side));
        Ok(Map { name: input.name.clone(), side, greys })
    }

    /// What the engine refused of this map. A map text has passed Map Text, so a high grey is a picture's.
    pub fn refused(&self, refusal: Refusal) -> Failure {
        let high = self.greys.iter().position(|grey| *grey > HIGHEST);
        let Some(cell) = high.filter(|_| refusal == Refusal::GreyHigh) else {
            return Failure::by_engine(&self.name, refusal);
        };
        let (row, column) = (cell / self.side as usize, cell % self.side as usize);
        let what = format!("a grey of {}, above {HIGHEST}", self.greys[cell]);
        Failure::Refused(format!(
            "{}: row {row}, column {column}: {what} (refusal {}); {HINT}",
            self.name,
            refusal.number()
        ))
    }

    /// The map's last level, at which each cell is a panel.
    pub fn last_level(&self) -> u32 {
        self.side.trailing_zeros()
    }

    /// The level that was asked for; else 2, or the last one where that is less.
    pub fn level(&self, arguments: &Arguments) -> Result<u32, Failure> {
        Ok(arguments.number("--level")?.unwrap_or(self.last_level().min(2)))
    }
}

/// The side and the greys of a picture; none if the file is a text. Dark is ink, unless it is inverted.
pub fn picture(input: &Input, invert: bool) -> Result<Option<(u32, Vec<u8>)>, Failure> {
    match pgm::kind(&input.bytes) {
        Kind::Pgm => (),
        Kind::Other(what) => {
            let words = "of netpbm's pictures only PGM (P2, P5) is read";
            return Err(Failure::Refused(format!("{}: {what}; {words}", input.name)));
        }
        Kind::Text if invert => {
            return Err(Failure::Usage(format!("--invert is for PGM pictures, and {} is none", input.name)));
        }
        Kind::Text => return Ok(None),
    }
    let picture = pgm::read(&input.bytes).map_err(|fault| {
        let (line, column) = pgm::line_and_column(&input.bytes, fault.at);
        // the values of a raw picture have no lines
        let whereabouts =
            if input.bytes[1] == b'2' { format!("{line}:{column}") } else { format!("byte {}", fault.at) };
        Failure::Refused(format!("{}:{whereabouts}: {}", input.name, fault.words))
    })?;
    let greys = picture.values.iter().map(|value| if invert { *value } else { 255 - value }).collect();
    Ok(Some((picture.side as u32, greys)))
}

/// A map text that the engine refused, with the place.
pub fn text_refused(input: &Input, refusal: Refusal) -> Failure {
    let hint = if refusal == Refusal::GreyHigh { format!("; {HINT}") } else { String::new() };
    let refused = match places::in_map(&input.bytes, refusal) {
        Some(place) => placed(input, &place, refusal),
        None => Failure::by_engine(&input.name, refusal),
    };
    Failure::Refused(format!("{refused}{hint}"))
}

/// A refusal with the place that was found for it.
pub fn placed(input: &Input, place: &places::Place, refusal: Refusal) -> Failure {
    let (name, line, column) = (&input.name, place.line, place.column);
    Failure::Refused(format!("{name}:{line}:{column}: {} (refusal {})", place.words, refusal.number()))
}

/// The map text of greys up to 255.
pub fn text_of(side: u32, greys: &[u8]) -> Vec<u8> {
    let mut text = format!("{side}\n");
    for row in greys.chunks(side as usize) {
        let numbers: Vec<String> = row.iter().map(u8::to_string).collect();
        text += &numbers.join(",");
        text.push('\n');
    }
    text.into_bytes()
}
