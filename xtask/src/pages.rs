//! The pages: what stands in backticks on them, and the points of the specification.

use std::path::Path;

use crate::text::read;

/// A text in backticks, with its line.
pub struct Quoted {
    pub line: usize,
    pub text: String,
}

/// What stands in backticks on a page, outside of blocks of code. Backticks pair up within a paragraph.
pub fn quoted(text: &str) -> Vec<Quoted> {
    let mut all = Vec::new();
    let mut fenced = false;
    let mut open: Option<Quoted> = None;
    let mut before = "";
    for (at, line) in text.lines().enumerate() {
        if line.starts_with("```") {
            fenced = !fenced;
        } else if line.trim().is_empty() {
            open = None;
        } else if !fenced && !is_code(line, before) {
            for (i, part) in line.split('`').enumerate() {
                if i > 0 {
                    open = match open.take() {
                        Some(done) => {
                            all.push(done);
                            None
                        }
                        None => Some(Quoted { line: at + 1, text: String::new() }),
                    };
                }
                if let Some(quoted) = &mut open {
                    let blank = if quoted.line <= at && !quoted.text.is_empty() && i == 0 { " " } else { "" };
                    quoted.text.push_str(blank);
                    quoted.text.push_str(part.trim_start());
                }
            }
        }
        if !is_code(line, before) || line.trim().is_empty() {
            before = line;
        }
    }
    all
}

/// Whether a line is one of a block of code: four blanks deep behind an empty line, or behind such a line.
fn is_code(line: &str, before: &str) -> bool {
    line.starts_with("    ") && before.trim().is_empty()
}

/// The points of a section of the specification, in order: number and title.
pub fn points(root: &Path, section: usize) -> Result<Vec<(String, String)>, String> {
    let text = read(&root.join("docs/SPECIFICATION.md"))?;
    let head = format!("**S {section}.");
    let lines = text.lines().filter_map(|line| line.strip_prefix(&head));
    let points: Vec<(String, String)> = lines
        .filter_map(|line| {
            let (number, title) = line.split("**").next()?.trim_end_matches('.').split_once(' ')?;
            Some((format!("{section}.{number}"), title.to_string()))
        })
        .collect();
    if points.is_empty() {
        return Err(format!("docs/SPECIFICATION.md: section {section} has no points"));
    }
    Ok(points)
}

#[cfg(test)]
mod tests {
    use super::*;

    #[test]
    fn names_on_a_page() {
        let page =
            "One `a-b` and `c\nd`.\n\n    code `not`\n    more `not`\n\n```text\n`not`\n```\n- `last`\n    `deep`\n";
        let found: Vec<(usize, String)> = quoted(page).into_iter().map(|one| (one.line, one.text)).collect();
        let expected = [(1, "a-b"), (1, "c d"), (10, "last"), (11, "deep")];
        assert_eq!(found, expected.map(|(line, text)| (line, text.to_string())));
    }
}
