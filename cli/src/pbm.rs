//! The holes as a PBM picture (P4): a bit for each cell, 1 for a hole, rows filled up to whole bytes.

pub fn picture(side: u32, holes: impl Iterator<Item = (u32, u32)>) -> Vec<u8> {
    let row_length = side.div_ceil(8) as usize;
    let mut bits = vec![0; row_length * side as usize];
    for (row, column) in holes {
        bits[row as usize * row_length + column as usize / 8] |= 0x80 >> (column % 8);
    }
    [format!("P4\n{side} {side}\n").as_bytes(), &bits].concat()
}
