//! The table that is printed, in Markdown.

use crate::clock::Time;

/// What the figures of a row are: a name, and how many there are of it in a second.
#[derive(Clone, Copy)]
pub struct Unit {
    name: &'static str,
    in_a_second: f64,
}

pub const MILLISECONDS: Unit = Unit { name: "ms", in_a_second: 1e3 };
pub const MICROSECONDS: Unit = Unit { name: "µs", in_a_second: 1e6 };
pub const NANOSECONDS_A_HOLE: Unit = Unit { name: "ns a hole", in_a_second: 1e9 };
pub const NANOSECONDS_A_BYTE: Unit = Unit { name: "ns a byte", in_a_second: 1e9 };
pub const NANOSECONDS_A_CELL: Unit = Unit { name: "ns a cell", in_a_second: 1e9 };

/// What was measured of the library, and what stands beside it: the library's time and the other's.
#[derive(Clone)]
pub struct Row {
    pub what: String,
    pub unit: Unit,
    pub library: Time,
    pub beside: String,
    pub other: Time,
}

const HEADS: [&str; 8] =
    ["What", "Unit", "Library", "Beside it", "Its time", "Ratio", "Library, wall clock", "Its time, wall clock"];

/// The columns of numbers, which are aligned on the right.
const NUMBERS: [bool; 8] = [false, false, true, false, true, true, true, true];

/// Prints the rows under their heads, with all columns aligned. The times are of the processor where nothing else is
/// said, and the ratio is of these.
pub fn print(rows: &[Row]) {
    let lines: Vec<[String; 8]> = [HEADS.map(String::from)].into_iter().chain(rows.iter().map(line)).collect();
    let widths: [usize; 8] =
        std::array::from_fn(|column| lines.iter().map(|line| line[column].chars().count()).max().unwrap_or(0));
    for (number, line) in lines.iter().enumerate() {
        let cells: Vec<String> = (0..8).map(|column| padded(column, widths[column], &line[column])).collect();
        println!("| {} |", cells.join(" | "));
        if number == 0 {
            let rules: Vec<String> = (0..8).map(|column| rule(column, widths[column])).collect();
            println!("|{}|", rules.join("|"));
        }
    }
}

fn line(row: &Row) -> [String; 8] {
    let figure = |seconds: f64| figure(seconds * row.unit.in_a_second);
    [
        row.what.clone(),
        row.unit.name.to_string(),
        figure(row.library.processor),
        row.beside.clone(),
        figure(row.other.processor),
        format!("{:.2}", row.library.processor / row.other.processor),
        figure(row.library.wall),
        figure(row.other.wall),
    ]
}

fn padded(column: usize, width: usize, text: &str) -> String {
    if NUMBERS[column] {
        format!("{text:>width$}")
    } else {
        format!("{text:<width$}")
    }
}

/// What stands under a head.
fn rule(column: usize, width: usize) -> String {
    let end = if NUMBERS[column] { ":" } else { "-" };
    "-".repeat(width + 1) + end
}

/// A number with four figures, or a few more.
fn figure(number: f64) -> String {
    let places = match number {
        100.0.. => 1,
        10.0.. => 2,
        _ => 3,
    };
    format!("{number:.places$}")
}

/// A whole number with a comma before each three figures.
pub fn grouped(number: usize) -> String {
    if number < 1_000 {
        number.to_string()
    } else {
        format!("{},{:03}", grouped(number / 1_000), number % 1_000)
    }
}
