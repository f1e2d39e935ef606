//! The holes as a DXF drawing (R12): a circle for each hole in order, on the layer HOLES, in millimetres, y upwards
//! from the lower left corner of the map.

use std::fmt::{Display, Write};

use crate::drill::Length;

pub fn drawing(side: u32, holes: impl Iterator<Item = (u32, u32)>, cell: Length) -> String {
    let mut dxf = String::new();
    let mut pair = |code: u32, value: &dyn Display| {
        // writing to a string never fails
        let _ = writeln!(dxf, "{code}\n{value}");
    };
    pair(999, &"Rulmedei: holes in order, in millimetres");
    for (code, value) in HEAD {
        pair(*code, value);
    }
    let radius = cell.hole().half();
    for (row, column) in holes {
        pair(0, &"CIRCLE");
        pair(8, &"HOLES");
        pair(10, &cell.centre(column));
        pair(20, &cell.centre(side - 1 - row));
        pair(30, &"0.0");
        pair(40, &radius);
    }
    pair(0, &"ENDSEC");
    pair(0, &"EOF");
    dxf
}

/// The header, and the tables with the line type and the two layers.
const HEAD: &[(u32, &str)] = &[
    (0, "SECTION"),
    (2, "HEADER"),
    (9, "$ACADVER"),
    (1, "AC1009"),
    (0, "ENDSEC"),
    (0, "SECTION"),
    (2, "TABLES"),
    (0, "TABLE"),
    (2, "LTYPE"),
    (70, "1"),
    (0, "LTYPE"),
    (2, "CONTINUOUS"),
    (70, "0"),
    (3, "Solid line"),
    (72, "65"),
    (73, "0"),
    (40, "0.0"),
    (0, "ENDTAB"),
    (0, "TABLE"),
    (2, "LAYER"),
    (70, "2"),
    (0, "LAYER"),
    (2, "0"),
    (70, "0"),
    (62, "7"),
    (6, "CONTINUOUS"),
    (0, "LAYER"),
    (2, "HOLES"),
    (70, "0"),
    (62, "7"),
    (6, "CONTINUOUS"),
    (0, "ENDTAB"),
    (0, "ENDSEC"),
    (0, "SECTION"),
    (2, "ENTITIES"),
];
