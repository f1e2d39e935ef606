//! The map and its holes as an SVG picture, a unit to the millimetre: a path for each grey, then a circle for each hole
//! in order.

use std::collections::BTreeMap;
use std::fmt::Write;

use crate::drill::Length;
use crate::maps::Map;

pub fn picture(map: &Map, holes: impl Iterator<Item = (u32, u32)>, cell: Length) -> String {
    let side = cell.times(map.side);
    let mut svg = format!(
        "<svg xmlns=\"http://www.w3.org/2000/svg\" width=\"{side}mm\" height=\"{side}mm\" \
        viewBox=\"0 0 {side} {side}\">\n"
    );
    // writing to a string never fails
    let _ = writeln!(svg, "<rect width=\"{side}\" height=\"{side}\" fill=\"#fff\"/>");
    let _ = writeln!(svg, "<g id=\"map\" transform=\"scale({cell})\" shape-rendering=\"crispEdges\">");
    svg += &squares(map.side, &map.greys);
    svg += "</g>\n<g id=\"holes\" fill=\"#000\">\n";
    let radius = cell.hole().half();
    for (row, column) in holes {
        let (x, y) = (cell.centre(column), cell.centre(row));
        let _ = writeln!(svg, "<circle cx=\"{x}\" cy=\"{y}\" r=\"{radius}\"/>");
    }
    svg + "</g>\n</svg>\n"
}

/// A path for each grey but 0, in units of a cell, from light to dark; equal cells that stand side by side are one
/// rectangle. Even the darkest is so light that holes stand out.
pub fn squares(side: u32, greys: &[u8]) -> String {
    let mut paths = BTreeMap::<u8, String>::new();
    for (row, line) in greys.chunks(side as usize).enumerate() {
        let mut column = 0;
        for run in line.chunk_by(|left, right| left == right) {
            let width = run.len();
            let _ = write!(paths.entry(run[0]).or_default(), "M{column} {row}h{width}v1h-{width}z");
            column += width;
        }
    }
    paths.remove(&0);
    paths.iter().map(|(grey, path)| format!("<path fill=\"{}\" d=\"{path}\"/>\n", shade(*grey))).collect()
}

/// A light shade for a grey: white for 0, and about two thirds of white for 240.
fn shade(grey: u8) -> String {
    let light = 255 - u32::from(grey) * 90 / 255;
    format!("#{light:02x}{light:02x}{light:02x}")
}
