//! Small things on texts: tokens, citations, paragraphs, files.

use std::fs;
use std::path::Path;

/// The text of a file of the tree; what cannot be read says its name.
pub fn read(path: &Path) -> Result<String, String> {
    fs::read_to_string(path).map_err(|error| format!("{}: {error}", path.display()))
}

/// The words of a text, in order: what stands between blanks and brackets. A projection such as `.exit` keeps its dot
/// in front; the dot behind the variables of a function is dropped.
pub fn tokens(text: &str) -> Vec<&str> {
    let between = |c: char| c.is_whitespace() || "(){}[],;⌜⌝«»".contains(c);
    text.split(between).map(|word| word.trim_end_matches('.')).filter(|word| !word.is_empty()).collect()
}

/// The points that a line cites, such as `3.2` for (S 3.2).
pub fn citations(line: &str) -> Vec<String> {
    let mut found = Vec::new();
    let mut rest = line;
    let mut before = None;
    while let Some(at) = rest.find("S ") {
        let front = rest[..at].chars().last().or(before);
        let number: String = rest[at + 2..].chars().take_while(|c| c.is_ascii_digit() || *c == '.').collect();
        let number = number.trim_end_matches('.');
        if !front.is_some_and(|c| c.is_alphanumeric() || c == '_') && number.contains('.') {
            found.push(number.to_string());
        }
        before = Some(' ');
        rest = &rest[at + 2..];
    }
    found
}

/// The words of a text in lines of at most 100 columns; what stands in backticks is not broken, nor is a citation.
pub fn wrapped(text: &str, first: &str, next: &str) -> String {
    let mut lines = Vec::new();
    let mut line = first.to_string();
    let mut empty = true;
    for word in unbroken(text) {
        if !empty && line.chars().count() + 1 + word.chars().count() > 100 {
            lines.push(std::mem::replace(&mut line, next.to_string()));
            empty = true;
        }
        if !empty {
            line.push(' ');
        }
        line.push_str(&word);
        empty = false;
    }
    lines.push(line);
    lines.join("\n") + "\n"
}

fn unbroken(text: &str) -> Vec<String> {
    let mut words: Vec<String> = Vec::new();
    let mut open = false;
    let mut before = "";
    for word in text.split_whitespace() {
        match words.last_mut() {
            Some(last) if open || before == "S" => {
                last.push(' ');
                last.push_str(word);
            }
            _ => words.push(word.to_string()),
        }
        open ^= word.matches('`').count() % 2 == 1;
        before = word;
    }
    words
}

/// How many columns a line is indented.
pub fn indent(line: &str) -> usize {
    line.len() - line.trim_start_matches(' ').len()
}

#[cfg(test)]
mod tests {
    use super::*;

    #[test]
    fn words_of_a_statement() {
        assert_eq!(tokens("(x : ℕ) → f x ≡ held .dots"), ["x", ":", "ℕ", "→", "f", "x", "≡", "held", ".dots"]);
        assert_eq!(tokens("λ grey. grey ≤ 255"), ["λ", "grey", "grey", "≤", "255"]);
    }

    #[test]
    fn points_cited() {
        assert_eq!(citations("-- so it is (S 15.4, S 2.10). CLASS 3.1"), ["15.4", "2.10"]);
    }

    #[test]
    fn lines_are_short() {
        let text = wrapped(&"`a b` ".repeat(40), "- ", "  ");
        assert!(text.lines().all(|line| line.len() <= 100 && line.matches('`').count() % 2 == 0));
    }
}
