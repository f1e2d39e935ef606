//! A page, and how its sentences, its formulas and its figures are found.

use std::fs;
use std::path::Path;

use crate::formula::Formula;
use crate::number::{figure, figure_length};

/// What a check says: nothing, or what is wrong and where.
pub type Checked = Result<(), String>;

/// A page or a part of one.
#[derive(Clone)]
pub struct Page {
    pub name: String,
    pub text: String,
}

impl Page {
    /// A page of the repository, by its path from the top.
    pub fn read(path: &str) -> Page {
        let full = Path::new(env!("CARGO_MANIFEST_DIR")).join("..").join(path);
        let text = fs::read_to_string(full).unwrap_or_else(|error| panic!("{path}: {error}"));
        Page { name: path.to_string(), text }
    }

    /// A numbered point of the page, from its number to the next point or section.
    pub fn point(&self, number: &str) -> Result<Page, String> {
        let starts = [format!("**S {number}**"), format!("**S {number} ")];
        let start =
            starts.iter().find_map(|start| self.text.find(start)).ok_or(self.missing(&format!("point {number}")))?;
        let rest = &self.text[start + 2..];
        let end = ["\n**S ", "\n## "].iter().filter_map(|end| rest.find(end)).min().unwrap_or(rest.len());
        Ok(Page { name: format!("{} at {number}", self.name), text: rest[..end].to_string() })
    }

    pub fn missing(&self, what: &str) -> String {
        format!("{}: '{what}' is missing", self.name)
    }

    pub fn fault(&self, what: String) -> String {
        format!("{}: {what}", self.name)
    }

    /// The lines set off by four spaces, without these. A line that is set off further than the first of its block goes
    /// on with the one before it.
    pub fn indented(&self) -> Vec<String> {
        let mut lines: Vec<String> = Vec::new();
        let mut first = None;
        for line in self.text.lines() {
            let depth = line.len() - line.trim_start().len();
            match (line.strip_prefix("    "), first) {
                (Some(rest), Some(at)) if depth > at => {
                    let last = lines.len() - 1;
                    lines[last] += &format!(" {}", rest.trim_start());
                }
                (Some(rest), _) => {
                    lines.push(rest.to_string());
                    first = first.or(Some(depth));
                }
                (None, _) => first = None,
            }
        }
        lines
    }

    /// What a sentence of the page has in the places of its pattern: `{}` is a number, `<>` any text. There must be one
    /// such sentence. Line breaks count as spaces.
    pub fn captures(&self, pattern: &str) -> Result<Vec<String>, String> {
        let text = self.text.split_whitespace().collect::<Vec<_>>().join(" ");
        let pieces = pieces(pattern);
        let starts = text.char_indices().map(|(start, _)| start);
        let mut found = starts.filter_map(|start| fit(&text[start..], &pieces));
        let captured = found.next().ok_or(self.missing(pattern))?;
        if found.next().is_some() {
            return Err(self.fault(format!("'{pattern}' is there twice")));
        }
        Ok(captured)
    }

    /// The whole numbers in the places of a pattern.
    pub fn numbers(&self, pattern: &str) -> Result<Vec<i128>, String> {
        let number = |text: &String| figure(text).and_then(|figure| figure.value.as_whole());
        let wrong = |text: &String| self.fault(format!("'{text}' is no whole number, in '{pattern}'"));
        self.captures(pattern)?.iter().map(|text| number(text).ok_or(wrong(text))).collect()
    }

    /// The sentence has these numbers.
    pub fn has(&self, pattern: &str, expected: &[i128]) -> Checked {
        let found = self.numbers(pattern)?;
        if found == expected {
            return Ok(());
        }
        Err(self.fault(format!("'{pattern}' has {found:?} and not {expected:?}")))
    }

    /// The formulas in the places of a pattern.
    pub fn formulas<const COUNT: usize>(&self, pattern: &str) -> Result<[Formula; COUNT], String> {
        let texts = self.captures(pattern)?;
        let read = |text: &String| Formula::read(text).map_err(|error| self.fault(error));
        let formulas = texts.iter().map(read).collect::<Result<Vec<_>, String>>()?;
        formulas.try_into().map_err(|_| self.fault(format!("'{pattern}' has not {COUNT} formulas")))
    }

    /// Fails with these words unless something holds.
    pub fn ensure(&self, holds: bool, what: impl FnOnce() -> String) -> Checked {
        if holds {
            return Ok(());
        }
        Err(self.fault(what()))
    }
}

/// A part of a pattern.
enum Piece<'a> {
    Words(&'a str),
    Number,
    Text,
}

fn pieces(pattern: &str) -> Vec<Piece<'_>> {
    let mut pieces = Vec::new();
    let mut rest = pattern;
    while let Some(at) = rest.find(['{', '<']) {
        pieces.push(Piece::Words(&rest[..at]));
        pieces.push(if rest[at..].starts_with('{') { Piece::Number } else { Piece::Text });
        rest = &rest[at + 2..];
    }
    pieces.push(Piece::Words(rest));
    pieces
}

/// What the places hold if the text begins with these pieces. A text is taken as short as can be.
fn fit(text: &str, pieces: &[Piece]) -> Option<Vec<String>> {
    let with_rest = |length: usize| {
        let mut captured = vec![text[..length].to_string()];
        captured.extend(fit(&text[length..], &pieces[1..])?);
        Some(captured)
    };
    match pieces.first() {
        None => Some(Vec::new()),
        Some(Piece::Words(words)) => fit(text.strip_prefix(words)?, &pieces[1..]),
        Some(Piece::Number) => {
            let sign = ["-", "−"].iter().find(|sign| text.starts_with(**sign)).map_or(0, |sign| sign.len());
            let length = figure_length(&text[sign..]);
            (length > 0).then(|| with_rest(sign + length))?
        }
        Some(Piece::Text) => text.char_indices().find_map(|(length, _)| with_rest(length)),
    }
}
