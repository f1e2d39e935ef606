//! The formulas of the pages: read as they are written there, and worked out in exact numbers.

use crate::number::{figure, figure_length, Ratio};

/// Names of more than one word.
const PHRASES: [&str; 4] = ["the sum of the lows", "the sum of the highs", "the panel's highs", "the top"];

/// Words and signs, each as it is written and as it is kept.
const SIGNS: [(&str, &str); 13] = [
    ("the smaller of", "smaller"),
    ("floor", "floor"),
    ("and", "and"),
    ("mod", "mod"),
    ("×", "x"),
    ("−", "-"),
    ("²", "²"),
    ("+", "+"),
    ("-", "-"),
    ("/", "/"),
    ("^", "^"),
    ("(", "("),
    (")", ")"),
];

#[derive(Debug, Clone, PartialEq, Eq)]
enum Token {
    Number(i128),
    Name(String),
    Sign(&'static str),
}

/// What stands for a name.
pub type Names<'a> = &'a [(&'a str, i128)];

/// A formula. Two are equal if they are written alike, but for spaces and for the signs of times and minus.
#[derive(Debug, Clone, PartialEq, Eq)]
pub struct Formula(Vec<Token>);

impl Formula {
    /// Reads a formula. That it has a value is seen when it is worked out.
    pub fn read(text: &str) -> Result<Formula, String> {
        let mut tokens: Vec<Token> = Vec::new();
        let mut rest = text.trim();
        while !rest.is_empty() {
            let (token, length) = first_token(rest, tokens.last()).ok_or(format!("'{text}' is no formula"))?;
            let is_number = matches!(token, Token::Number(_));
            tokens.push(token);
            rest = &rest[length..];
            // 8i is 8 times i
            if is_number && rest.starts_with(char::is_alphabetic) {
                tokens.push(Token::Sign("x"));
            }
            rest = rest.trim_start();
        }
        Ok(Formula(tokens))
    }

    /// The value with these numbers for the names.
    pub fn value(&self, names: Names) -> Result<Ratio, String> {
        let mut reader = Reader { tokens: &self.0, at: 0, names };
        let value = reader.sum()?;
        if reader.at < self.0.len() {
            return Err(format!("a formula goes on with {:?}", self.0[reader.at]));
        }
        Ok(value)
    }

    /// The value, which has to be a whole number.
    pub fn whole(&self, names: Names) -> Result<i128, String> {
        let value = self.value(names)?;
        value.as_whole().ok_or(format!("{value:?} is no whole number"))
    }

    /// The formula with numbers written for names. Times 1 is left out.
    pub fn with(&self, names: Names) -> Formula {
        let mut tokens: Vec<Token> = Vec::new();
        for token in &self.0 {
            let number = number_of(token, names);
            if number == Some(1) && tokens.last() == Some(&Token::Sign("x")) {
                tokens.pop();
            } else {
                tokens.push(number.map_or(token.clone(), Token::Number));
            }
        }
        Formula(tokens)
    }

    /// What the first floor is taken of, where there is one.
    pub fn floored(&self) -> Option<Formula> {
        let start = self.0.iter().position(|token| *token == Token::Sign("floor"))? + 2;
        let mut depth = 1;
        for (place, token) in self.0.iter().enumerate().skip(start) {
            depth += match token {
                Token::Sign("(") => 1,
                Token::Sign(")") => -1,
                _ => 0,
            };
            if depth == 0 {
                return Some(Formula(self.0[start..place].to_vec()));
            }
        }
        None
    }

    /// The formula with s x s for s².
    pub fn without_squares(&self) -> Formula {
        let mut tokens: Vec<Token> = Vec::new();
        for token in &self.0 {
            match tokens.last() {
                Some(before) if *token == Token::Sign("²") => {
                    let again = before.clone();
                    tokens.extend([Token::Sign("x"), again]);
                }
                _ => tokens.push(token.clone()),
            }
        }
        Formula(tokens)
    }
}

fn number_of(token: &Token, names: Names) -> Option<i128> {
    match token {
        Token::Name(name) => names.iter().find(|(known, _)| known == name).map(|(_, number)| *number),
        _ => None,
    }
}

/// The token at the start of a text, and its length. An x behind a number, a name or a bracket is times, and else a
/// name.
fn first_token(text: &str, before: Option<&Token>) -> Option<(Token, usize)> {
    let length = figure_length(text);
    if length > 0 {
        return Some((Token::Number(figure(&text[..length])?.value.as_whole()?), length));
    }
    if let Some(phrase) = PHRASES.iter().find(|phrase| text.starts_with(**phrase)) {
        return Some((Token::Name(phrase.to_string()), phrase.len()));
    }
    let word = text.find(|letter: char| !letter.is_alphabetic()).unwrap_or(text.len());
    let operand = matches!(before, Some(Token::Number(_) | Token::Name(_) | Token::Sign(")" | "²")));
    if &text[..word] == "x" && operand {
        return Some((Token::Sign("x"), 1));
    }
    let whole_word = |sign: &str| !sign.starts_with(char::is_alphabetic) || sign.contains(' ') || sign.len() == word;
    if let Some((sign, kept)) = SIGNS.iter().find(|(sign, _)| text.starts_with(sign) && whole_word(sign)) {
        return Some((Token::Sign(kept), sign.len()));
    }
    let length = word + usize::from(text[word..].starts_with('\''));
    (word > 0).then(|| (Token::Name(text[..length].to_string()), length))
}

/// Works out tokens from the left: sums of products of powers.
struct Reader<'a> {
    tokens: &'a [Token],
    at: usize,
    names: Names<'a>,
}

impl Reader<'_> {
    /// Takes one of these signs, if it comes next.
    fn sign(&mut self, signs: &[&'static str]) -> Option<&'static str> {
        match self.tokens.get(self.at) {
            Some(Token::Sign(sign)) if signs.contains(sign) => {
                self.at += 1;
                Some(sign)
            }
            _ => None,
        }
    }

    fn expect(&mut self, sign: &'static str) -> Result<(), String> {
        self.sign(&[sign]).map(|_| ()).ok_or(format!("a formula has no '{sign}' where it needs one"))
    }

    fn sum(&mut self) -> Result<Ratio, String> {
        let mut value = self.product()?;
        while let Some(sign) = self.sign(&["+", "-"]) {
            let next = self.product()?;
            value = if sign == "+" { value + next } else { value - next };
        }
        Ok(value)
    }

    fn product(&mut self) -> Result<Ratio, String> {
        let mut value = self.power()?;
        while let Some(sign) = self.sign(&["x", "/", "mod"]) {
            let next = self.power()?;
            let quotient = value.by(next);
            value = match sign {
                "x" => value * next,
                "/" => quotient.ok_or("a formula divides by 0")?,
                _ => value - next * Ratio::whole(quotient.ok_or("a formula divides by 0")?.floor()),
            };
        }
        Ok(value)
    }

    fn power(&mut self) -> Result<Ratio, String> {
        let value = self.operand()?;
        if self.sign(&["²"]).is_some() {
            return Ok(value * value);
        }
        if self.sign(&["^"]).is_none() {
            return Ok(value);
        }
        let times = self.operand()?.as_whole().filter(|times| (0..60).contains(times));
        let times = times.ok_or("a formula has a power that is none of 0 to 59")?;
        Ok((0..times).fold(Ratio::whole(1), |power, _| power * value))
    }

    fn operand(&mut self) -> Result<Ratio, String> {
        match self.sign(&["(", "floor", "smaller"]) {
            Some("smaller") => return self.smaller(),
            Some("floor") => {
                self.expect("(")?;
                return Ok(Ratio::whole(self.bracket()?.floor()));
            }
            Some(_) => return self.bracket(),
            None => (),
        }
        let token = self.tokens.get(self.at).ok_or("a formula ends too early")?;
        self.at += 1;
        match token {
            Token::Number(number) => Ok(Ratio::whole(*number)),
            _ => number_of(token, self.names).map(Ratio::whole).ok_or(format!("{token:?} has no value")),
        }
    }

    /// What stands behind an opening bracket, and the closing one.
    fn bracket(&mut self) -> Result<Ratio, String> {
        let value = self.sum()?;
        self.expect(")")?;
        Ok(value)
    }

    fn smaller(&mut self) -> Result<Ratio, String> {
        let one = self.sum()?;
        self.expect("and")?;
        let other = self.sum()?;
        Ok(if other < one { other } else { one })
    }
}
