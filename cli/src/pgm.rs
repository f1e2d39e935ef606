//! Reads a picture: a PGM, plain (P2) or raw (P5), of one of the eight sides. Nothing is resized, and nothing that a
//! picture has too little or too much is passed over.

/// The sides that a map may have.
pub const SIDES: [usize; 8] = [2, 4, 8, 16, 32, 64, 128, 256];

/// The largest value that a PGM may give to white.
const MOST: usize = 65_535;

/// A picture: its values, scaled to 0 for black and 255 for white, by row.
#[derive(Debug, PartialEq, Eq)]
pub struct Picture {
    pub side: usize,
    pub values: Vec<u8>,
}

/// What does not fit, and the byte at which it stands.
#[derive(Debug, PartialEq, Eq)]
pub struct Fault {
    pub at: usize,
    pub words: String,
}

/// What the first bytes say of an input.
#[derive(Debug, PartialEq, Eq)]
pub enum Kind {
    Pgm,
    /// Another kind of netpbm's pictures, by name.
    Other(&'static str),
    Text,
}

/// A picture begins with P, a digit and white space or a comment; all else is read as a text.
pub fn kind(bytes: &[u8]) -> Kind {
    let [b'P', digit, rest @ ..] = bytes else { return Kind::Text };
    if !rest.first().is_none_or(|byte| is_white(*byte) || *byte == b'#') {
        return Kind::Text;
    }
    match digit {
        b'2' | b'5' => Kind::Pgm,
        b'1' => Kind::Other("a plain PBM picture (P1)"),
        b'3' => Kind::Other("a plain PPM picture (P3)"),
        b'4' => Kind::Other("a PBM picture (P4)"),
        b'6' => Kind::Other("a PPM picture (P6)"),
        b'7' => Kind::Other("a PAM picture (P7)"),
        _ => Kind::Text,
    }
}

/// Reads the one picture that the bytes are.
pub fn read(bytes: &[u8]) -> Result<Picture, Fault> {
    let mut reader = Reader { bytes, at: 2 };
    let (width, at) = reader.number("the width")?;
    let (height, _) = reader.number("the height")?;
    if width != height || !SIDES.contains(&width) {
        let sides = SIDES.map(|side| side.to_string()).join(", ");
        let (width, height) = (told(width), told(height));
        return Err(Fault { at, words: format!("a picture of {width} by {height}; the sides that are: {sides}") });
    }
    let (white, at) = reader.number("the value of white")?;
    if white == 0 || white > MOST {
        return Err(Fault { at, words: format!("white is 1 to {MOST}, not {}", told(white)) });
    }
    let values = if bytes[1] == b'2' { reader.plain(width * width, white) } else { reader.raw(width * width, white) }?;
    Ok(Picture { side: width, values })
}

/// Where in the text a byte stands: its line and column, from 1.
pub fn line_and_column(bytes: &[u8], at: usize) -> (usize, usize) {
    let before = &bytes[..at.min(bytes.len())];
    let line = before.iter().filter(|byte| **byte == b'\n').count() + 1;
    let column = before.iter().rev().take_while(|byte| **byte != b'\n').count() + 1;
    (line, column)
}

fn is_white(byte: u8) -> bool {
    byte.is_ascii_whitespace() || byte == 0x0b
}

/// A number in a message: a larger one than a picture may have was not read further.
fn told(number: usize) -> String {
    if number > MOST {
        return format!("more than {MOST}");
    }
    number.to_string()
}

/// A value of the picture as one of 0 to 255, to the nearest.
fn scaled(value: usize, white: usize) -> u8 {
    ((2 * 255 * value + white) / (2 * white)) as u8
}

struct Reader<'a> {
    bytes: &'a [u8],
    at: usize,
}

impl Reader<'_> {
    fn next(&self) -> Option<u8> {
        self.bytes.get(self.at).copied()
    }

    /// Passes over white space, and over comments, from # to the end of the line.
    fn skip(&mut self) {
        let mut comment = false;
        while let Some(byte) = self.next() {
            comment = byte == b'#' || comment && byte != b'\n' && byte != b'\r';
            if !comment && !is_white(byte) {
                return;
            }
            self.at += 1;
        }
    }

    /// The next number, and where it begins. One above `MOST` is read to its end, and is then 65,536.
    fn number(&mut self, what: &str) -> Result<(usize, usize), Fault> {
        self.skip();
        let start = self.at;
        let mut number = 0;
        while let Some(digit) = self.next().filter(u8::is_ascii_digit) {
            number = (10 * number + usize::from(digit - b'0')).min(MOST + 1);
            self.at += 1;
        }
        match self.next() {
            None if self.at == start => Err(self.fault(format!("the picture ends before {what}"))),
            Some(byte) if !is_white(byte) && byte != b'#' => {
                Err(self.fault(format!("a byte that is no part of {what}")))
            }
            _ => Ok((number, start)),
        }
    }

    /// The values of a plain picture.
    fn plain(&mut self, cells: usize, white: usize) -> Result<Vec<u8>, Fault> {
        let mut values = Vec::with_capacity(cells);
        for cell in 0..cells {
            let (value, at) = self.number(&format!("value {} of {cells}", cell + 1))?;
            values.push(self.value(value, white, at)?);
        }
        self.skip();
        self.end(values)
    }

    /// The values of a raw picture, of one byte each, or of two where white is above 255.
    fn raw(&mut self, cells: usize, white: usize) -> Result<Vec<u8>, Fault> {
        if !self.next().is_some_and(is_white) {
            return Err(self.fault("white space and the values must follow".to_string()));
        }
        self.at += 1;
        let width = if white > 255 { 2 } else { 1 };
        let mut values = Vec::with_capacity(cells);
        for cell in 0..cells {
            let Some(bytes) = self.bytes.get(self.at..self.at + width) else {
                self.at = self.bytes.len();
                return Err(self.fault(format!("the picture ends before value {} of {cells}", cell + 1)));
            };
            let value = bytes.iter().fold(0, |value, byte| 256 * value + usize::from(*byte));
            values.push(self.value(value, white, self.at)?);
            self.at += width;
        }
        self.end(values)
    }

    fn value(&self, value: usize, white: usize, at: usize) -> Result<u8, Fault> {
        if value > white {
            let words = format!("a value of {}, where white is {white}", told(value));
            return Err(Fault { at, words });
        }
        Ok(scaled(value, white))
    }

    fn end(&self, values: Vec<u8>) -> Result<Vec<u8>, Fault> {
        match self.next() {
            None => Ok(values),
            Some(_) => Err(self.fault("something follows the last value of the picture".to_string())),
        }
    }

    fn fault(&self, words: String) -> Fault {
        Fault { at: self.at, words }
    }
}

#[cfg(test)]
mod tests {
    use super::*;

    /// The values of a picture of side 2.
    fn values(bytes: &[u8]) -> Vec<u8> {
        read(bytes).expect("a picture").values
    }

    fn fault(bytes: &[u8]) -> (usize, String) {
        let fault = read(bytes).expect_err("no picture");
        (fault.at, fault.words)
    }

    #[test]
    fn both_ways_of_writing_and_comments() {
        assert_eq!(values(b"P2 2 2 255 0 1\n254 255"), [0, 1, 254, 255]);
        assert_eq!(values(b"P2#a\n# b\n2#c\n2\t7#d 9\n0 7\r\n3 # e\n4 # f"), [0, 255, 109, 146]);
        assert_eq!(values(b"P5\n# a\n2 2\n255\n\x00\x0a#\xff"), [0, 10, 35, 255]);
        assert_eq!(values(b"P5 2 2 1 \x00\x01\x01\x00"), [0, 255, 255, 0]);
        assert_eq!(values(b"P5 2 2 65535 \x00\x00\xff\xff\x80\x00\x00\x80"), [0, 255, 128, 0]);
        assert_eq!(values(b"P5 2 2 256 \x00\x00\x01\x00\x00\x80\x00\x01"), [0, 255, 128, 1]);
    }

    #[test]
    fn the_first_bytes_tell() {
        assert_eq!(kind(b"P2\n"), Kind::Pgm);
        assert_eq!(kind(b"P5#"), Kind::Pgm);
        assert_eq!(kind(b"P6 "), Kind::Other("a PPM picture (P6)"));
        for text in [&b"P"[..], b"P8 ", b"P22", b"2\n", b""] {
            assert_eq!(kind(text), Kind::Text);
        }
    }

    #[test]
    fn what_does_not_fit_is_told_with_its_place() {
        let sides = "the sides that are: 2, 4, 8, 16, 32, 64, 128, 256";
        assert_eq!(fault(b"P5 3 3 255 "), (3, format!("a picture of 3 by 3; {sides}")));
        assert_eq!(fault(b"P5 2 4 255 "), (3, format!("a picture of 2 by 4; {sides}")));
        assert_eq!(fault(b"P5 99999999999999999999999 2 255 ").0, 3);
        assert_eq!(fault(b"P2 2 2 0 0 0 0 0"), (7, "white is 1 to 65535, not 0".to_string()));
        assert_eq!(fault(b"P2 2 2 65536 "), (7, "white is 1 to 65535, not more than 65535".to_string()));
        assert_eq!(fault(b"P2 2 2 255 0 256 0 0"), (13, "a value of 256, where white is 255".to_string()));
        assert_eq!(fault(b"P2 2 2 255 0 9 0"), (16, "the picture ends before value 4 of 4".to_string()));
        assert_eq!(fault(b"P2 2 2 255 0 9 0 1 1").0, 19);
        assert_eq!(fault(b"P2 2 2 255 0 -9 0 1").0, 13);
        assert_eq!(fault(b"P5 2 2 255").1, "white space and the values must follow");
        assert_eq!(fault(b"P5 2 2 255 abc"), (14, "the picture ends before value 4 of 4".to_string()));
        assert_eq!(fault(b"P5 2 2 256 abcdefg").1, "a value of 24930, where white is 256");
        assert_eq!(fault(b"P5 2 2 255 abcd\n"), (15, "something follows the last value of the picture".to_string()));
        assert_eq!(fault(b"P5 2"), (4, "the picture ends before the height".to_string()));
        assert_eq!(fault(b"P5"), (2, "the picture ends before the width".to_string()));
        assert_eq!(fault(b"P5 # no end").1, "the picture ends before the width");
    }
}
