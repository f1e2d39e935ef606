//! The proved library, run on a map: Load and Advance for one head, Two Heads for two.

use rulmedei::{advance, cells, drill_list, list_room, load, page_length, pyramid_length, quote_page, two_heads};
use rulmedei::{Progress, Refusal, PLAIN, RIBBED};

use crate::arguments::Arguments;
use crate::failure::Failure;
use crate::maps::Map;

/// A burnt sheet.
pub struct Sheet {
    record: Progress,
    pyramid: Vec<i64>,
    pub serials: Vec<u32>,
    order: Vec<u32>,
    /// How many holes of the order were asked for; with one head these are all that were burnt.
    holes: usize,
}

/// A line of the quote page.
#[derive(Clone, Copy, Debug, PartialEq, Eq)]
pub struct Panel {
    pub row: u32,
    pub column: u32,
    pub grey: u32,
    pub holes: u32,
    pub cap: u32,
}

/// The knit that was asked for.
pub fn knit(arguments: &Arguments) -> Result<u32, Failure> {
    Ok(if arguments.one_of("--knit", &["plain", "ribbed"])? == "plain" { PLAIN } else { RIBBED })
}

impl Sheet {
    fn empty(side: u32) -> Sheet {
        let (pyramid, serials, order) = (vec![0; pyramid_length(side)], vec![0; cells(side)], vec![0; cells(side)]);
        Sheet { record: Progress { side, dots: 0, knit: PLAIN }, pyramid, serials, order, holes: 0 }
    }

    /// Burns the first holes of a map, or all, with one head.
    pub fn one_head(map: &Map, knit: u32, first: u32) -> Result<Sheet, Refusal> {
        let mut sheet = Sheet::empty(map.side);
        let (pyramid, serials, order) = (&mut sheet.pyramid, &mut sheet.serials, &mut sheet.order);
        let start = load(map.side, knit, &map.greys, pyramid, serials, order)?;
        sheet.record = advance(start, first, pyramid, serials, order)?.progress;
        sheet.holes = sheet.record.dots as usize;
        Ok(sheet)
    }

    /// Burns all holes of a map with two heads, of which the first are listed.
    pub fn two_heads(map: &Map, knit: u32, first: u32) -> Result<Sheet, Refusal> {
        let mut sheet = Sheet::empty(map.side);
        let (pyramid, serials, order) = (&mut sheet.pyramid, &mut sheet.serials, &mut sheet.order);
        sheet.record = two_heads(map.side, knit, &map.greys, pyramid, serials, order)?.progress;
        sheet.holes = sheet.record.dots.min(first) as usize;
        Ok(sheet)
    }

    /// Row and column of each hole, in order.
    pub fn holes(&self) -> impl Iterator<Item = (u32, u32)> + '_ {
        self.order[..self.holes].iter().map(|cell| (cell / self.record.side, cell % self.record.side))
    }

    /// The drill list. Of two heads' list the first holes may be asked for: then these lines of it, and their number.
    pub fn list(&self) -> Result<Vec<u8>, Refusal> {
        let mut list = vec![0; list_room(self.record.side)];
        let length = drill_list(self.record, &self.pyramid, &self.serials, &self.order, &mut list)?;
        list.truncate(length);
        if self.holes == self.record.dots as usize {
            return Ok(list);
        }
        let lines = list.split_inclusive(|byte| *byte == b'\n').skip(1).take(self.holes);
        Ok([format!("{},{}\n", self.holes, self.record.side).as_bytes(), &lines.collect::<Vec<_>>().concat()].concat())
    }
}

/// The quote page of a level: the text, and its lines as numbers.
pub fn page(map: &Map, serials: &[u32], level: u32) -> Result<(Vec<u8>, Vec<Panel>), Refusal> {
    // a level past the last one is refused before the page is written
    let mut text = vec![0; page_length(level.min(map.last_level()))];
    let length = quote_page(map.side, &map.greys, serials, level, &mut text)?;
    text.truncate(length);
    let panels = text.split(|byte| *byte == b'\n').filter(|line| !line.is_empty()).map(panel).collect();
    Ok((text, panels))
}

/// A line of the page, whose five columns are numbers.
fn panel(line: &[u8]) -> Panel {
    let mut numbers = line.split(|byte| *byte == b' ').filter(|word| !word.is_empty()).map(number);
    let mut next = || numbers.next().unwrap_or_default();
    Panel { row: next(), column: next(), grey: next(), holes: next(), cap: next() }
}

fn number(digits: &[u8]) -> u32 {
    digits.iter().fold(0, |number, digit| 10 * number + u32::from(digit - b'0'))
}
