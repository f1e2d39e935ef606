//! The quote as a page: one file with nothing from elsewhere, on one sheet of A4 when printed. All figures are the
//! engine's. The slider alone needs the script.

use std::fmt::Write;

use rulmedei::{cells, PLAIN};

use crate::engine::{Panel, Sheet};
use crate::help::VERSION;
use crate::maps::Map;
use crate::svg::squares;

const STYLE: &str = include_str!("page.css");
const SCRIPT: &str = include_str!("page.js");

/// The last level whose panels have a caption and a line in the table; further ones would be too small to read.
const LAST_TOLD: u32 = 3;

/// How wide the picture is, in its own units.
const WIDTH: f64 = 640.0;

/// How the panels lie in the picture.
struct Layout {
    /// The panels of a row, which are pulled apart; where they are too many to be told, the liner is one.
    panels: u32,
    /// The cells of a panel's row.
    cells: u32,
    width: f64,
    gap: f64,
    /// Of the strip with a panel's figures.
    strip: f64,
    /// For the names of the rows, on the left, and of the columns, above.
    margin: f64,
}

impl Layout {
    fn new(side: u32, level: u32) -> Layout {
        let panels = if level > LAST_TOLD { 1 } else { 1 << level };
        let (gap, strip) = match level {
            0..=2 => (8.0, 26.0),
            3 => (5.0, 18.0),
            _ => (0.0, 0.0),
        };
        let margin = if panels > 1 { 20.0 } else { 0.0 };
        let width = (WIDTH - margin - gap * f64::from(panels - 1)) / f64::from(panels);
        Layout { panels, cells: side / panels, width, gap, strip, margin }
    }

    fn cell(&self) -> f64 {
        self.width / f64::from(self.cells)
    }

    /// From one panel to the next, to the right and down.
    fn pitch(&self) -> (f64, f64) {
        (self.width + self.gap, self.width + self.gap + self.strip)
    }

    /// The left and upper end of a panel's cells.
    fn corner(&self, row: u32, column: u32) -> (f64, f64) {
        let (wide, high) = self.pitch();
        (self.margin + f64::from(column) * wide, self.margin + f64::from(row) * high + self.strip)
    }

    /// The centre of a cell of the map.
    fn centre(&self, row: u32, column: u32) -> (f64, f64) {
        let (x, y) = self.corner(row / self.cells, column / self.cells);
        let along = |cell: u32| (f64::from(cell % self.cells) + 0.5) * self.cell();
        (x + along(column), y + along(row))
    }

    fn height(&self) -> f64 {
        self.margin + f64::from(self.panels) * self.pitch().1 - self.gap
    }
}

/// The whole page.
pub fn page(map: &Map, knit: u32, level: u32, sheet: &Sheet, panels: &[Panel]) -> String {
    let name = escaped(&title(&map.name));
    let cloth = if knit == PLAIN { "plain" } else { "ribbed" };
    let (side, along) = (map.side, map.side >> level);
    let place = match level {
        0..=2 => "beside",
        3 => "below",
        _ => "alone",
    };
    let total: u32 = panels.iter().map(|panel| panel.holes).sum();
    format!(
        "<!doctype html>\n<html lang=\"en\">\n<meta charset=\"utf-8\">\n\
        <meta name=\"viewport\" content=\"width=device-width, initial-scale=1\">\n\
        <meta http-equiv=\"Content-Security-Policy\" content=\"default-src 'none'; style-src 'unsafe-inline'; \
        script-src 'unsafe-inline'\">\n<title>{name}: quote</title>\n<style>\n{STYLE}</style>\n<main>\n\
        <header><h1>Quote: {name}</h1><span>map of {side} by {side} cells, panels of {along} by {along} \
        (level {level}), {cloth} cloth</span></header>\n{figures}{slider}<div class=\"{place}\">\n\
        {picture}{tables}</div>\n\
        {SIGNED}<footer>Proved for every map: the number of holes of the finished liner, and the cap of each panel at \
        every step. Holes and figures are the proved engine's; this page, which shows them, is not proved. \
        {VERSION}.</footer>\n</main>\n<script>\n{SCRIPT}</script>\n</html>\n",
        figures = figures(panels, along),
        slider = slider(total),
        picture = picture(map, level, sheet, panels),
        tables = tables(panels, level, if place == "beside" { small(map.side, level, sheet) } else { String::new() }),
    )
}

const SIGNED: &str = "<div class=\"sign\"><div>clinic, date</div><div>maker, date</div><div>liner number</div></div>\n";

/// The name of a file without its folders and its last ending.
fn title(name: &str) -> String {
    let file = name.rsplit('/').next().unwrap_or(name);
    match file.rsplit_once('.') {
        Some((stem, _)) if !stem.is_empty() => stem.to_string(),
        _ => file.to_string(),
    }
}

fn escaped(text: &str) -> String {
    text.replace('&', "&amp;").replace('<', "&lt;").replace('>', "&gt;").replace('"', "&quot;")
}

/// A number with commas between thousands.
fn grouped(number: u32) -> String {
    let digits = number.to_string();
    let head = digits.len() % 3;
    let groups = digits.as_bytes()[head..].chunks(3).map(|group| String::from_utf8_lossy(group).into_owned());
    let first = (head > 0).then(|| digits[..head].to_string());
    first.into_iter().chain(groups).collect::<Vec<_>>().join(",")
}

/// The two figures that are signed.
fn figures(panels: &[Panel], along: u32) -> String {
    let grey: u32 = panels.iter().map(|panel| panel.grey).sum();
    let holes: u32 = panels.iter().map(|panel| panel.holes).sum();
    let cap = panels.iter().map(|panel| panel.cap).max().unwrap_or_default();
    let most = panels.iter().map(|panel| panel.holes).max().unwrap_or_default();
    let fullest = panels.iter().find(|panel| panel.holes == most).map_or((0, 0), |panel| (panel.row, panel.column));
    format!(
        "<div class=\"figs\">\n<div class=\"fig\"><h2>Holes in the finished liner</h2>\
        <strong id=\"total\" data-total=\"{holes}\">{}</strong><p>Exactly: the greys sum to {}, a hole is worth 255, \
        and the quotient is rounded to the nearest.</p></div>\n\
        <div class=\"fig\"><h2>No panel above its cap</h2><strong id=\"cap\" data-cap=\"{cap}\">at most {}</strong>\
        <p>holes in any panel of {along} by {along} cells, and in each at most its own cap. The fullest has {} \
        (row {}, column {}).</p></div>\n</div>\n",
        grouped(holes),
        grouped(grey),
        grouped(cap),
        grouped(most),
        fullest.0,
        fullest.1,
    )
}

/// Hidden where no script runs, since it would do nothing there.
fn slider(total: u32) -> String {
    format!(
        "<div class=\"run\" id=\"run\" hidden><label for=\"first\">First holes</label>\n\
        <input id=\"first\" type=\"range\" min=\"0\" max=\"{total}\" value=\"{total}\">\n\
        <output id=\"shown\" for=\"first\">hole {0} of {0}</output></div>\n",
        grouped(total)
    )
}

/// The liner with its panels pulled apart, and holes and cap above each.
fn picture(map: &Map, level: u32, sheet: &Sheet, panels: &[Panel]) -> String {
    let layout = Layout::new(map.side, level);
    let (wide, high) = layout.pitch();
    // writing to a string never fails
    let mut svg = format!(
        "<figure><svg id=\"liner\" xmlns=\"http://www.w3.org/2000/svg\" viewBox=\"-1 -1 {} {:.2}\" role=\"img\" \
        font-family=\"'Helvetica Neue', Arial, 'DejaVu Sans', sans-serif\" \
        aria-label=\"the liner with its panels and holes\" data-panels=\"{}\" data-margin=\"{}\" \
        data-wide=\"{wide:.4}\" data-high=\"{high:.4}\">\n",
        WIDTH + 2.0,
        layout.height() + 2.0,
        layout.panels,
        layout.margin
    );
    let _ = writeln!(svg, "<rect x=\"-1\" y=\"-1\" width=\"100%\" height=\"100%\" fill=\"#fff\"/>");
    if level > LAST_TOLD {
        svg += &panel_cells(map, &layout, 0, 0);
        svg += &grid(map.side, level, &layout);
    } else {
        svg += &names(&layout);
        for (at, panel) in panels.iter().enumerate() {
            svg += &panel_cells(map, &layout, panel.row, panel.column);
            svg += &caption(&layout, level, at, panel);
        }
    }
    svg += "<g id=\"holes\">\n";
    let radius = 0.33 * layout.cell();
    for (row, column) in sheet.holes() {
        let (x, y) = layout.centre(row, column);
        let _ = writeln!(svg, "<circle cx=\"{x:.2}\" cy=\"{y:.2}\" r=\"{radius:.2}\"/>");
    }
    let words = if level > LAST_TOLD {
        "The liner as it is cut; darker cells ask for more holes."
    } else {
        "The liner with its panels pulled apart; above each its holes / cap. Darker cells ask for more holes."
    };
    svg + &format!("</g>\n</svg><figcaption>{words}</figcaption></figure>\n")
}

/// The names of the columns and rows of panels; one alone needs none.
fn names(layout: &Layout) -> String {
    let mut svg = String::new();
    for at in (0..layout.panels).filter(|_| layout.panels > 1) {
        let (x, y) = layout.corner(at, at);
        let (x, y) = (x + layout.width / 2.0, y + layout.width / 2.0 - layout.strip / 2.0);
        let look = "font-size=\"12\" fill=\"#55616b\" text-anchor=\"middle\"";
        let _ = writeln!(svg, "<text x=\"{x:.2}\" y=\"13\" {look}>column {at}</text>");
        let _ = writeln!(svg, "<text transform=\"translate(13 {y:.2}) rotate(-90)\" {look}>row {at}</text>");
    }
    svg
}

/// The cells of a panel, as light as they ask for few holes, and a frame.
fn panel_cells(map: &Map, layout: &Layout, row: u32, column: u32) -> String {
    let (length, side) = (layout.cells as usize, map.side as usize);
    let mut greys = Vec::with_capacity(cells(layout.cells));
    for line in 0..length {
        let start = (row as usize * length + line) * side + column as usize * length;
        greys.extend_from_slice(&map.greys[start..start + length]);
    }
    let (x, y) = layout.corner(row, column);
    format!(
        "<g transform=\"translate({x:.4} {y:.4}) scale({:.6})\" shape-rendering=\"crispEdges\">\n{}</g>\n\
        <rect x=\"{x:.2}\" y=\"{y:.2}\" width=\"{2:.2}\" height=\"{2:.2}\" fill=\"none\" stroke=\"#55616b\"/>\n",
        layout.cell(),
        squares(layout.cells, &greys),
        layout.width
    )
}

/// The strip over a panel: its holes / cap, and a bar.
fn caption(layout: &Layout, level: u32, at: usize, panel: &Panel) -> String {
    let (x, y) = layout.corner(panel.row, panel.column);
    let (top, size) = (y - layout.strip, if level == 3 { 12 } else { 16 });
    let Panel { holes, cap, .. } = panel;
    format!(
        "<rect x=\"{x:.2}\" y=\"{top:.2}\" width=\"{:.2}\" height=\"{:.2}\" fill=\"#e9eef2\" stroke=\"#55616b\"/>\
        <text x=\"{:.2}\" y=\"{:.2}\" font-size=\"{size}\" fill=\"#17242e\">\
        <tspan id=\"made-{at}\" font-weight=\"700\">{holes}</tspan> / {cap}</text>\n",
        layout.width,
        layout.strip,
        x + 5.0,
        y - layout.strip * 0.28,
    )
}

/// Lines between panels that are too many to be told one by one; between those of a few cells they would hide the map.
fn grid(side: u32, level: u32, layout: &Layout) -> String {
    let (along, mut path) = (side >> level, String::new());
    for at in (0..side).step_by(along as usize).skip(1).filter(|_| along >= 4) {
        let at = f64::from(at) * layout.cell();
        let _ = write!(path, "M{at:.2} 0v{WIDTH}M0 {at:.2}h{WIDTH}");
    }
    format!("<path d=\"{path}\" stroke=\"#55616b\" stroke-width=\".3\"/>\n")
}

/// The figures of each panel, 16 to a table.
fn tables(panels: &[Panel], level: u32, behind: String) -> String {
    if level > LAST_TOLD {
        let count = grouped(panels.len() as u32);
        return format!("<p>The figures of the {count} panels: rulmedei quote -f csv --level {level}</p>\n");
    }
    let head = "<thead><tr><th>row</th><th>column</th><th>grey sum</th><th>holes</th><th>cap</th></tr></thead>\n";
    let mut html = "<div class=\"tables\">\n".to_string();
    for (table, lines) in panels.chunks(16).enumerate() {
        let _ = writeln!(html, "<table>{head}<tbody>");
        for (line, panel) in lines.iter().enumerate() {
            html += &row(16 * table + line, panel);
        }
        html += "</tbody>\n";
        if 16 * table + lines.len() == panels.len() {
            html += &whole(panels);
        }
        html += "</table>\n";
    }
    html + &behind + "</div>\n"
}

/// The liner as it is cut: a dot for each hole, by one path in the holes' order.
fn small(side: u32, level: u32, sheet: &Sheet) -> String {
    let dots: String = sheet.holes().map(|(row, column)| format!("M{column}.5 {row}.5h0")).collect();
    let lines = (0..side).step_by((side >> level) as usize).map(|at| format!("M{at} 0v{side}M0 {at}h{side}"));
    format!(
        "<figure class=\"small\"><svg viewBox=\"0 0 {side} {side}\" role=\"img\" \
        aria-label=\"the liner as it is cut\">\n\
        <path d=\"{}M{side} 0v{side}M0 {side}h{side}\" stroke=\"#9aa6af\" stroke-width=\"{}\"/>\n\
        <path id=\"small\" d=\"{dots}\" stroke=\"#0b1d2c\" stroke-width=\".66\" stroke-linecap=\"round\"/>\n\
        </svg><figcaption>The liner as it is cut.</figcaption></figure>\n",
        lines.collect::<String>(),
        f64::from(side) / 400.0,
    )
}

fn row(at: usize, panel: &Panel) -> String {
    let Panel { row, column, grey, holes, cap } = *panel;
    format!(
        "<tr data-row=\"{row}\" data-column=\"{column}\" data-grey=\"{grey}\" data-holes=\"{holes}\" \
        data-cap=\"{cap}\"><td>{row}</td><td>{column}</td><td>{}</td><td id=\"holes-{at}\">{holes}</td>\
        <td>{cap}</td></tr>\n",
        grouped(grey)
    )
}

/// The line of the whole liner.
fn whole(panels: &[Panel]) -> String {
    let grey = grouped(panels.iter().map(|panel| panel.grey).sum());
    let holes = grouped(panels.iter().map(|panel| panel.holes).sum());
    format!(
        "<tfoot><tr><td colspan=\"2\">whole liner</td><td>{grey}</td><td id=\"holes-all\">{holes}</td><td></td></tr>\
        </tfoot>"
    )
}

#[cfg(test)]
mod tests {
    use super::*;

    #[test]
    fn words_are_safe_and_numbers_grouped() {
        assert_eq!(escaped(&title("a/b/<x>&\"y\".map")), "&lt;x&gt;&amp;&quot;y&quot;");
        assert_eq!(title("standard input"), "standard input");
        assert_eq!(title(".map"), ".map");
        assert_eq!([0, 12, 123, 1_234, 123_456, 1_234_567].map(grouped).join(" "), "0 12 123 1,234 123,456 1,234,567");
    }
}
