//! The holes as an Excellon drill program: one tool, a line for each hole in order, in millimetres with decimal points,
//! y upwards from the lower left corner of the map.

use std::fmt::Write;

use crate::drill::Length;

pub fn program(side: u32, holes: impl Iterator<Item = (u32, u32)>, cell: Length) -> String {
    let mut program = format!("M48\n; Rulmedei: holes in order\nMETRIC\nT1C{}\n%\nG90\nT1\n", cell.hole());
    for (row, column) in holes {
        // writing to a string never fails
        let _ = writeln!(program, "X{}Y{}", cell.centre(column), cell.centre(side - 1 - row));
    }
    program + "M30\n"
}
