//! Exact numbers, and how the pages write them.

use std::cmp::Ordering;
use std::ops::{Add, Mul, Sub};

/// A fraction in lowest terms, with `under` above 0.
#[derive(Debug, Clone, Copy, PartialEq, Eq)]
pub struct Ratio {
    over: i128,
    under: i128,
}

impl Ratio {
    /// `over` by `under`, which is not 0.
    pub fn new(over: i128, under: i128) -> Ratio {
        let shared = divisor(over.abs(), under.abs()) * under.signum();
        Ratio { over: over / shared, under: under / shared }
    }

    pub fn whole(number: i128) -> Ratio {
        Ratio { over: number, under: 1 }
    }

    /// None by 0.
    pub fn by(self, other: Ratio) -> Option<Ratio> {
        (other.over != 0).then(|| Ratio::new(self.over * other.under, self.under * other.over))
    }

    pub fn floor(self) -> i128 {
        self.over.div_euclid(self.under)
    }

    /// The number itself, if it is a whole one.
    pub fn as_whole(self) -> Option<i128> {
        (self.under == 1).then_some(self.over)
    }
}

/// The greatest number that divides both, where one of them is above 0.
fn divisor(one: i128, other: i128) -> i128 {
    if other == 0 {
        one
    } else {
        divisor(other, one % other)
    }
}

impl Add for Ratio {
    type Output = Ratio;

    fn add(self, other: Ratio) -> Ratio {
        Ratio::new(self.over * other.under + other.over * self.under, self.under * other.under)
    }
}

impl Sub for Ratio {
    type Output = Ratio;

    fn sub(self, other: Ratio) -> Ratio {
        self + Ratio::whole(-1) * other
    }
}

impl Mul for Ratio {
    type Output = Ratio;

    fn mul(self, other: Ratio) -> Ratio {
        Ratio::new(self.over * other.over, self.under * other.under)
    }
}

impl PartialOrd for Ratio {
    fn partial_cmp(&self, other: &Ratio) -> Option<Ordering> {
        (self.over * other.under).partial_cmp(&(other.over * self.under))
    }
}

/// A number with the decimal places that it is printed with.
#[derive(Debug, Clone, Copy, PartialEq, Eq)]
pub struct Figure {
    pub value: Ratio,
    pub places: u32,
}

/// Reads a number as the pages write it: a sign or none, thousands parted by commas, decimal places or none.
pub fn figure(text: &str) -> Option<Figure> {
    let (sign, digits) = match text.strip_prefix(['-', '−']) {
        Some(digits) => (-1, digits),
        None => (1, text),
    };
    let (whole, places) = digits.split_once('.').unwrap_or((digits, ""));
    let number: i128 = whole.replace(',', "").parse().ok()?;
    if written(number) != whole || digits.ends_with('.') {
        return None;
    }
    let unit = 10i128.pow(places.len() as u32);
    let part: i128 = if places.is_empty() { 0 } else { places.parse().ok()? };
    Some(Figure { value: Ratio::new(sign * (number * unit + part), unit), places: places.len() as u32 })
}

/// A whole number as the pages write it.
pub fn written(number: i128) -> String {
    let digits = number.abs().to_string();
    let mut text = String::new();
    for (place, digit) in digits.chars().enumerate() {
        if place > 0 && (digits.len() - place) % 3 == 0 {
            text.push(',');
        }
        text.push(digit);
    }
    if number < 0 {
        text.insert(0, '−');
    }
    text
}

/// How many bytes at the start of a text are digits of one number, without a sign.
pub fn figure_length(text: &str) -> usize {
    let digits = |from: usize| text[from..].bytes().take_while(u8::is_ascii_digit).count();
    let mut length = digits(0);
    if length == 0 {
        return 0;
    }
    while text[length..].starts_with(',') && digits(length + 1) == 3 {
        length += 4;
    }
    if text[length..].starts_with('.') && digits(length + 1) > 0 {
        length += 1 + digits(length + 1);
    }
    length
}
