//! `rulmedei figures`: what can be signed of a map before any hole is made: the number of holes, and of each panel the
//! cap and the floor. Number and caps are the engine's, of the sketch whose lows and highs are both the greys; the grey
//! sums are those of its quote page. The floor is worked out here (S 15.5).

use std::fmt::Write;

use rulmedei::{cells, sketch_quote};

use crate::arguments::{Arguments, Takes};
use crate::engine::{page, Panel};
use crate::failure::Failure;
use crate::maps::Map;

pub const TAKES: Takes = Takes { valued: &["-o", "--level"], plain: &["--invert"], files: (0, 1) };

pub fn run(arguments: &Arguments) -> Result<Vec<u8>, Failure> {
    arguments.number("--level")?;
    let map = Map::given(arguments)?;
    let level = map.level(arguments)?;
    let size = cells(map.side);
    let (mut lows, mut highs, mut caps) = (vec![0; size], vec![0; size], vec![0; size]);
    let quote = sketch_quote(&sketch_of(&map), level, &mut lows, &mut highs, &mut caps);
    let total = quote.map_err(|refusal| map.refused(refusal))?.greatest;
    let (_, panels) = page(&map, &vec![0; size], level).map_err(|refusal| map.refused(refusal))?;
    let mut text = format!("total {total}\nrow column     grey   cap floor\n");
    for (Panel { row, column, grey, .. }, cap) in panels.iter().zip(&caps) {
        let floor = floor(map.side, level, *grey);
        // writing to a string never fails
        let _ = writeln!(text, "{row:3} {column:6} {grey:8} {cap:5} {floor:5}");
    }
    Ok(text.into_bytes())
}

/// The sketch that only this map lies in.
fn sketch_of(map: &Map) -> Vec<u8> {
    let mut text = format!("{}\n", map.side);
    for row in map.greys.chunks(map.side as usize) {
        let pairs: Vec<String> = row.iter().map(|grey| format!("{grey},{grey}")).collect();
        text += &pairs.join(",");
        text.push('\n');
    }
    text.into_bytes()
}

/// The fewest holes of a panel of a level with this grey sum, on the finished map; 0 where nothing is promised.
fn floor(side: u32, level: u32, grey: u32) -> i64 {
    let shorter = i64::from(side - (side >> level));
    let above = 2 * i64::from(grey) - 255 - 1_530 * i64::from(level) - 2_040 * shorter;
    if above < 0 {
        return 0;
    }
    above / 510 + 1
}

#[cfg(test)]
mod tests {
    use super::*;

    /// The figures of docs/QUOTES.md.
    #[test]
    fn floors() {
        assert_eq!(floor(32, 1, 20_139), 12);
        assert_eq!(floor(32, 2, 8_235), 0);
        assert_eq!(floor(32, 0, 67_923), 266);
    }
}
