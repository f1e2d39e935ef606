//! `rulmedei drill`: the holes of a map in the order in which they are burnt, as a list, a picture or a program for a
//! machine.

use crate::arguments::{Arguments, Takes};
use crate::engine::{knit, Sheet};
use crate::failure::Failure;
use crate::maps::Map;
use crate::{dxf, excellon, pbm, svg};

pub const TAKES: Takes =
    Takes { valued: &["-f", "-o", "--knit", "--heads", "--first", "--cell-mm"], plain: &["--invert"], files: (0, 1) };

pub fn run(arguments: &Arguments) -> Result<Vec<u8>, Failure> {
    let format = arguments.one_of("-f", &["list", "pbm", "svg", "dxf", "excellon"])?;
    let knit = knit(arguments)?;
    let heads = arguments.one_of("--heads", &["1", "2"])?;
    let first = arguments.number("--first")?.unwrap_or(u32::MAX);
    let cell = Length::of_cell(arguments)?;
    let map = Map::given(arguments)?;
    let burnt = if heads == "1" { Sheet::one_head(&map, knit, first) } else { Sheet::two_heads(&map, knit, first) };
    let sheet = burnt.map_err(|refusal| map.refused(refusal))?;
    match format {
        "list" => sheet.list().map_err(|refusal| map.refused(refusal)),
        "pbm" => Ok(pbm::picture(map.side, sheet.holes())),
        "svg" => Ok(svg::picture(&map, sheet.holes(), cell).into_bytes()),
        "dxf" => Ok(dxf::drawing(map.side, sheet.holes(), cell).into_bytes()),
        _ => Ok(excellon::program(map.side, sheet.holes(), cell).into_bytes()),
    }
}

/// A length in whole ten-thousandths of a millimetre.
#[derive(Clone, Copy, Debug, PartialEq, Eq)]
pub struct Length(pub u64);

impl Length {
    /// The side of a cell: 3 mm, or what was asked for.
    fn of_cell(arguments: &Arguments) -> Result<Length, Failure> {
        let value = arguments.value("--cell-mm").unwrap_or("3");
        Length::read(value).ok_or(Failure::Usage(format!(
            "--cell-mm takes millimetres from 0.1 to 100 with at most 3 decimals, not '{value}'"
        )))
    }

    /// A decimal number of millimetres from 0.1 to 100, with at most 3 decimals.
    fn read(text: &str) -> Option<Length> {
        let (whole, part) = text.split_once('.').unwrap_or((text, "0"));
        let is_number = |word: &str, most| (1..=most).contains(&word.len()) && word.bytes().all(|b| b.is_ascii_digit());
        if !is_number(whole, 3) || !is_number(part, 3) {
            return None;
        }
        let thousandths: u64 = format!("{part:0<3}").parse().ok()?;
        let length = (whole.parse::<u64>().ok()? * 1000 + thousandths) * 10;
        (1_000..=1_000_000).contains(&length).then_some(Length(length))
    }

    /// A cell's hole is a third of the cell across, to the nearest ten-thousandth of a millimetre.
    pub fn hole(self) -> Length {
        Length((2 * self.0 + 3) / 6)
    }

    /// How far the centre of a cell is from the edge of the map, with as many cells between.
    pub fn centre(self, cells: u32) -> Length {
        Length(self.0 * (2 * u64::from(cells) + 1) / 2)
    }

    pub fn times(self, count: u32) -> Length {
        Length(self.0 * u64::from(count))
    }

    /// Half of it, to the nearest ten-thousandth of a millimetre.
    pub fn half(self) -> Length {
        Length(self.0.div_ceil(2))
    }
}

impl std::fmt::Display for Length {
    /// In millimetres, with one decimal at least and four at most.
    fn fmt(&self, f: &mut std::fmt::Formatter<'_>) -> std::fmt::Result {
        let part = format!("{:04}", self.0 % 10_000);
        let part = part.trim_end_matches('0');
        write!(f, "{}.{}", self.0 / 10_000, if part.is_empty() { "0" } else { part })
    }
}

#[cfg(test)]
mod tests {
    use super::*;

    #[test]
    fn lengths_are_read_and_written() {
        for (text, written, hole, third) in
            [("3", "3.0", "1.0", "10.5"), ("2.5", "2.5", "0.8333", "8.75"), ("0.125", "0.125", "0.0417", "0.4375")]
        {
            let cell = Length::read(text).unwrap();
            assert_eq!([cell.to_string(), cell.hole().to_string(), cell.centre(3).to_string()], [written, hole, third]);
        }
        for text in ["", "0", "0.05", "100.001", "1000", "-1", "1e1", "3.", ".5", "3.0001", "3,5", "x", "1.-5"] {
            assert_eq!(Length::read(text), None, "{text}");
        }
    }
}
