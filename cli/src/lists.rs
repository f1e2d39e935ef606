//! Reads a drill list, as the engine writes it: whole, each hole in its turn, on the map, and no cell twice.

use rulmedei::cells;

use crate::failure::Failure;
use crate::files::Input;
use crate::pgm::SIDES;

/// The side, and the serial of each cell, 0 where there is no hole.
pub fn read(input: &Input) -> Result<(u32, Vec<u32>), Failure> {
    let refused = |line: usize, words: &str| Failure::Refused(format!("{}:{line}: {words}", input.name));
    let mut lines = input.bytes.split_inclusive(|byte| *byte == b'\n');
    let [holes, side] = numbers(lines.next()).ok_or(refused(1, "a drill list begins with 'holes,side'"))?;
    if !SIDES.contains(&(side as usize)) {
        return Err(refused(1, "the side of a drill list is 2, 4, 8, 16, 32, 64, 128 or 256"));
    }
    let mut serials = vec![0; cells(side)];
    let mut count = 0;
    for line in lines {
        let at = count as usize + 2;
        let hole = numbers(Some(line)).ok_or(refused(at, "a hole's line is 'serial,row,column'"))?;
        let [serial, row, column] = hole;
        if serial != count + 1 {
            return Err(refused(at, "the serials of a drill list are 1, 2, 3 and so on"));
        }
        if row >= side || column >= side {
            return Err(refused(at, "a hole that is not on the map"));
        }
        let cell = &mut serials[(row * side + column) as usize];
        if *cell != 0 {
            return Err(refused(at, "a cell that has a hole already"));
        }
        *cell = serial;
        count = serial;
    }
    if count != holes {
        return Err(refused(1, &format!("the list is not whole: it says {holes} holes, and has {count}")));
    }
    Ok((side, serials))
}

/// The numbers of a line: with commas between, byte 10 at the end, and no zero in front.
fn numbers<const COUNT: usize>(line: Option<&[u8]>) -> Option<[u32; COUNT]> {
    let text = std::str::from_utf8(line?.strip_suffix(b"\n")?).ok()?;
    let words: [&str; COUNT] = text.split(',').collect::<Vec<_>>().try_into().ok()?;
    let mut numbers = [0; COUNT];
    for (number, word) in numbers.iter_mut().zip(words) {
        *number = word.parse().ok()?;
        if number.to_string() != word {
            return None;
        }
    }
    Some(numbers)
}

#[cfg(test)]
mod tests {
    use super::*;

    fn list(text: &str) -> Result<(u32, Vec<u32>), Failure> {
        read(&Input { name: "list".to_string(), bytes: text.as_bytes().to_vec() })
    }

    #[test]
    fn a_list_is_read_only_if_it_is_whole() {
        assert_eq!(list("2,2\n1,0,0\n2,1,1\n"), Ok((2, vec![1, 0, 0, 2])));
        assert_eq!(list("0,2\n"), Ok((2, vec![0; 4])));
        let bad = ["2,2\n1,0,0\n", "1,2\n1,0,0", "1,2\n1,0,2\n", "1,3\n1,0,0\n", "2,2\n1,0,0\n2,0,0\n", "1,2\n2,0,0\n"];
        for text in bad.into_iter().chain(["1,2\n01,0,0\n", "1,2\n1,0\n", "1,2\r\n1,0,0\r\n", ",\n", "1,2\n+1,0,0\n"]) {
            assert!(list(text).is_err(), "{text:?}");
        }
    }
}
