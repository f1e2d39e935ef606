//! Where the cells lie in a pyramid by quarters. Bit 2 i of a cell's place within the level is bit i of its column, and
//! bit 2 i + 1 is bit i of its row; so the place is a part that the row gives and a part that the column gives, added
//! up. Either part is found in a table of 32 by 32 places, five bits at a time, as the library does it.

/// The places of 32 by 32 entries, by row then column.
static PLACES: [u16; 1024] = places();

const fn places() -> [u16; 1024] {
    let mut places = [0; 1024];
    let mut cell = 0;
    while cell < 1024 {
        let (row, column) = (cell / 32, cell % 32);
        let mut bit = 0;
        while bit < 5 {
            places[cell] += ((column >> bit & 1) << (2 * bit)) as u16;
            places[cell] += ((row >> bit & 1) << (2 * bit + 1)) as u16;
            bit += 1;
        }
        cell += 1;
    }
    places
}

/// What a row gives to the places of its cells.
pub fn row_part(row: usize) -> usize {
    1024 * PLACES[(row / 32) * 32] as usize + PLACES[(row % 32) * 32] as usize
}

/// What a column gives to the places of its cells.
fn column_part(column: usize) -> usize {
    1024 * PLACES[column / 32] as usize + PLACES[column % 32] as usize
}

/// The parts of all columns of a map with this power, found once for all rows.
pub fn column_parts(power: usize) -> [usize; 256] {
    let mut parts = [0; 256];
    for column in 0..1 << power {
        parts[column] = column_part(column);
    }
    parts
}

/// The place in the pyramid of the entry over another one, which is not the top.
pub fn above(at: usize) -> usize {
    (at - 1) / 4
}

/// The sum of the four entries below the one at a place of the pyramid.
pub fn four(at: usize, pyramid: &[i64]) -> i64 {
    let below = &pyramid[4 * at + 1..4 * at + 5];
    below[0] + below[1] + below[2] + below[3]
}

/// The cells around a hole, three by three, the hole's own in the middle: the parts of the three rows and of the three
/// columns, found once a hole, for its spread and its renewal. What would be off the map has the parts of the map's
/// edge; whether it is on the map is noted beside.
pub struct Around {
    rows: [usize; 3],
    columns: [usize; 3],
    rows_on: [bool; 3],
    columns_on: [bool; 3],
}

impl Around {
    /// The cells around one of a map with this power.
    #[inline]
    pub fn cell(power: usize, row: usize, column: usize) -> Around {
        let last = (1 << power) - 1;
        let (top, low) = (row.saturating_sub(1), (row + 1).min(last));
        let (left, right) = (column.saturating_sub(1), (column + 1).min(last));
        Around {
            rows: [row_part(top), row_part(row), row_part(low)],
            columns: [column_part(left), column_part(column), column_part(right)],
            rows_on: [top != row, true, low != row],
            columns_on: [left != column, true, right != column],
        }
    }

    /// The place, within the level of the cells, of number 0 to 8 of the nine, by row then column.
    pub fn place(&self, number: usize) -> usize {
        self.rows[number / 3] + self.columns[number % 3]
    }

    /// The places in the pyramid of the four at the corners, where the level of the cells begins at `start`.
    pub fn corners(&self, start: usize) -> [usize; 4] {
        [start + self.place(0), start + self.place(2), start + self.place(6), start + self.place(8)]
    }

    /// Whether this one is on the map.
    pub fn is_on_map(&self, number: usize) -> bool {
        self.rows_on[number / 3] && self.columns_on[number % 3]
    }

    /// Whether all nine are.
    pub fn is_inside(&self) -> bool {
        self.rows_on[0] && self.rows_on[2] && self.columns_on[0] && self.columns_on[2]
    }
}
