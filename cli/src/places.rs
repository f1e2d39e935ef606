//! Where a text does not fit. The engine answers with a number alone; this reader, which is not proved, looks for the
//! place again and says what stands there. It decides nothing: the number is the engine's, and where this reader finds
//! no fault of that kind it names no place.

use rulmedei::{Refusal, HIGHEST};

/// A text's line and column, from 1, the column in bytes, and what is wrong there.
#[derive(Debug, PartialEq, Eq)]
pub struct Place {
    pub line: usize,
    pub column: usize,
    pub words: String,
}

/// The numbers of a text behind its first line, with their places, and how many a line has.
struct Cells {
    side: usize,
    greys: Vec<(usize, usize, usize)>,
}

/// The first place for which a map text may be refused so.
pub fn in_map(text: &[u8], refusal: Refusal) -> Option<Place> {
    find(text, 1, refusal)
}

/// The same for a sketch, which has two numbers a cell.
pub fn in_sketch(text: &[u8], refusal: Refusal) -> Option<Place> {
    find(text, 2, refusal)
}

fn find(text: &[u8], each: usize, refusal: Refusal) -> Option<Place> {
    let read = Reader { text, at: 0, line: 1, start: 0 }.cells(each);
    match (refusal, read) {
        (Refusal::TextMalformed, Err(place)) => Some(place),
        (Refusal::SideUnknown, Ok(cells))
            if ![1, 2, 3, 4, 5, 6, 7, 8].map(|power| 1 << power).contains(&cells.side) =>
        {
            Some(Place { line: 1, column: 1, words: Refusal::SideUnknown.sentence().to_string() })
        }
        (Refusal::GreyHigh, Ok(cells)) => {
            let high = cells.greys.iter().find(|(grey, ..)| *grey > usize::from(HIGHEST))?;
            Some(place(high, format!("a grey of {}, above {HIGHEST}", high.0)))
        }
        (Refusal::PairFalls, Ok(cells)) => {
            let pair = cells.greys.chunks(2).find(|pair| pair[0].0 > pair[1].0)?;
            Some(place(&pair[0], format!("a low of {}, above its high of {}", pair[0].0, pair[1].0)))
        }
        _ => None,
    }
}

fn place(at: &(usize, usize, usize), words: String) -> Place {
    Place { line: at.1, column: at.2, words }
}

struct Reader<'a> {
    text: &'a [u8],
    at: usize,
    line: usize,
    /// Where the line begins.
    start: usize,
}

impl Reader<'_> {
    /// Reads the whole text; for a side that is none of the eight only its first line.
    fn cells(mut self, each: usize) -> Result<Cells, Place> {
        let side = self.number("the side", 999)?;
        self.end_of_line("behind the side")?;
        let mut greys = Vec::new();
        if side.is_power_of_two() && (2..=256).contains(&side) {
            for row in 0..side {
                self.row(row, side * each, &mut greys)?;
            }
            if self.next().is_some() {
                return Err(self.fault(format!("something follows the last of the {side} rows")));
            }
        }
        Ok(Cells { side, greys })
    }

    fn row(&mut self, row: usize, length: usize, greys: &mut Vec<(usize, usize, usize)>) -> Result<(), Place> {
        for at in 0..length {
            let column = self.at - self.start + 1;
            let grey = self.number("a grey", 255).map_err(|place| self.missing(place, row, at, length))?;
            greys.push((grey, self.line, column));
            if at + 1 < length {
                match self.next() {
                    Some(b',') => self.at += 1,
                    Some(b'\n') => return Err(self.fault(format!("the row ends after {} of {length} greys", at + 1))),
                    _ => return Err(self.unexpected("where a comma belongs")),
                }
            }
        }
        if self.next() == Some(b',') {
            return Err(self.fault(format!("more than {length} greys in the row")));
        }
        self.end_of_line("at the end of the row")
    }

    /// A text that ends between two rows lacks rows, rather than a grey.
    fn missing(&self, place: Place, row: usize, at: usize, length: usize) -> Place {
        match self.next() {
            None if at == 0 => self.fault(format!("the text ends before row {} of the map", row + 1)),
            Some(b'\n') if at == 0 => self.fault(format!("an empty line in place of {length} greys")),
            _ => place,
        }
    }

    /// The next number, of at most `most`.
    fn number(&mut self, what: &str, most: usize) -> Result<usize, Place> {
        let first = self.at;
        let mut number = 0;
        while let Some(digit) = self.next().filter(u8::is_ascii_digit) {
            number = (10 * number + usize::from(digit - b'0')).min(most + 1);
            self.at += 1;
        }
        let digits = self.at - first;
        if digits == 0 {
            return Err(self.unexpected(&format!("where {what} belongs")));
        }
        if number > most || (digits > 1 && self.text[first] == b'0') {
            self.at = first;
            let words =
                if number > most { format!("{what} above {most}") } else { format!("{what} with a zero in front") };
            return Err(self.fault(words));
        }
        Ok(number)
    }

    fn end_of_line(&mut self, whereabouts: &str) -> Result<(), Place> {
        if self.next() != Some(b'\n') {
            return Err(self.unexpected(&format!("{whereabouts}, where the line ends")));
        }
        self.at += 1;
        self.line += 1;
        self.start = self.at;
        Ok(())
    }

    /// What stands here, which doesn't belong.
    fn unexpected(&self, whereabouts: &str) -> Place {
        let what = match self.next() {
            None => "the end of the text".to_string(),
            Some(b'\n') => "the end of the line".to_string(),
            Some(b'\r') => "a carriage return".to_string(),
            Some(b' ') => "a space".to_string(),
            Some(byte) if byte.is_ascii_graphic() => format!("'{}'", char::from(byte)),
            Some(byte) => format!("byte {byte}"),
        };
        self.fault(format!("{what} {whereabouts}"))
    }

    fn next(&self) -> Option<u8> {
        self.text.get(self.at).copied()
    }

    fn fault(&self, words: String) -> Place {
        Place { line: self.line, column: self.at - self.start + 1, words }
    }
}

#[cfg(test)]
mod tests {
    use super::*;

    /// What is said of a text that Map Text refuses; and that it does refuse it.
    fn said(text: &str) -> String {
        let refusal = rulmedei::map_text(text.as_bytes(), &mut [0; 65536]).expect_err("no map");
        let place = in_map(text.as_bytes(), refusal).expect("a place");
        format!("{}:{}: {} ({})", place.line, place.column, place.words, refusal.number())
    }

    #[test]
    fn the_place_of_each_fault_of_a_map() {
        assert_eq!(said("2\n1,2\n3,256\n"), "3:3: a grey above 255 (7)");
        assert_eq!(said("2\n1,2\n3,99999999999999999999999\n"), "3:3: a grey above 255 (7)");
        assert_eq!(said("2\n1,2\n3,241\n"), "3:3: a grey of 241, above 240 (12)");
        assert_eq!(said("2\n1,02\n3,4\n"), "2:3: a grey with a zero in front (7)");
        assert_eq!(said("2\n1, 2\n3,4\n"), "2:3: a space where a grey belongs (7)");
        assert_eq!(said("2\r\n1,2\r\n3,4\r\n"), "1:2: a carriage return behind the side, where the line ends (7)");
        assert_eq!(said("2\n1,2\n3,4"), "3:4: the end of the text at the end of the row, where the line ends (7)");
        assert_eq!(said("2\n1,2\n"), "3:1: the text ends before row 2 of the map (7)");
        assert_eq!(said("2\n1\n3,4\n"), "2:2: the row ends after 1 of 2 greys (7)");
        assert_eq!(said("2\n1,2,3\n3,4\n"), "2:4: more than 2 greys in the row (7)");
        assert_eq!(said("2\n1;2\n3,4\n"), "2:2: ';' where a comma belongs (7)");
        assert_eq!(said("2\n\n3,4\n"), "2:1: an empty line in place of 2 greys (7)");
        assert_eq!(said("2\n1,2\n3,4\n\n"), "4:1: something follows the last of the 2 rows (7)");
        assert_eq!(said("x"), "1:1: 'x' where the side belongs (7)");
        assert_eq!(said(""), "1:1: the end of the text where the side belongs (7)");
        assert_eq!(said("1000\n"), "1:1: the side above 999 (7)");
        assert_eq!(said("03\n"), "1:1: the side with a zero in front (7)");
        assert!(said("3\n").starts_with("1:1: "));
    }

    #[test]
    fn the_place_in_a_sketch() {
        let text = b"2\n1,2,3,4\n5,6,8,7\n";
        let place = in_sketch(text, Refusal::PairFalls).unwrap();
        assert_eq!((place.line, place.column, place.words.as_str()), (3, 5, "a low of 8, above its high of 7"));
        assert_eq!(in_sketch(text, Refusal::GreyHigh), None);
        assert_eq!(in_sketch(text, Refusal::TextMalformed), None);
    }
}
