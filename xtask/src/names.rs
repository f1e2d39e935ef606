//! names: whether every name of ours that stands in backticks on README.md or a page of docs exists in the tree: a law,
//! definition, function, crate, module, file, tool, or must-fail edit. Notes on requests (docs/changes), docs/PORT.md
//! and docs/DESIGN-PASS.md keep the names of their time. A name counts as existing if something declares it, in a
//! language without declarations that we read if code uses it; comments do not count.

use std::collections::HashSet;
use std::path::Path;

use crate::pages::quoted;
use crate::text::read;

/// The fewest names that the pages may have: a reader that finds nothing fails.
const LEAST: usize = 1000;
/// Words in backticks that are no names of ours, with what they are.
const NOT_OURS: [(&str, &[&str]); 6] = [
    ("axioms of the kit, which nothing here uses", &["lem", "ac"]),
    ("what the kit proves with", &["omega"]),
    ("programs that tests use", &["rsvg-convert"]),
    ("names of earlier times, which docs/CHANGING.md explains", &["demand-3", "request-7", "dot", "Asked", "Calls"]),
    ("parts of names, which say what a law is about", &["ext", "mono"]),
    ("files that are made and go again", &["crates/plate/out/plate", "FILE.NUMBER-0.part"]),
];
/// The page that is made of the logs of `rt ci`, and compared with them afterwards (`tools/impostors --check`).
const FROM_LOGS: &str = "docs/IMPOSTORS.md";
/// Folders that are not searched.
const LEFT_OUT: [&str; 3] = [".git", "target", "out"];
/// What names things only to test that they are missed.
const TESTS: [&str; 2] = ["xtask/src/", "tools/test-pages"];

/// The names of the tree.
#[derive(Default)]
struct Known {
    files: Vec<String>,
    words: HashSet<String>,
}

/// The whole check.
pub fn check(root: &Path) -> Result<Vec<String>, Vec<String>> {
    let one = |why: String| vec![why];
    let known = known(root).map_err(one)?;
    let mut wrong = Vec::new();
    let mut count = 0;
    let pages: Vec<&String> = known.files.iter().filter(|file| is_page(file)).collect();
    for page in &pages {
        for name in quoted(&read(&root.join(page)).map_err(one)?) {
            for word in checked_words(&name.text) {
                count += 1;
                if !known.has(word) && !is_line(root, word) {
                    wrong.push(format!("{page}:{}: `{word}` is nowhere in the tree", name.line));
                }
            }
        }
    }
    if count < LEAST {
        wrong.push(format!("docs: {count} names only; at least {LEAST} are expected"));
    }
    if !wrong.is_empty() {
        return Err(wrong);
    }
    Ok(vec![format!("names: {count} names on {} pages, each in the tree", pages.len())])
}

fn is_page(file: &str) -> bool {
    let left_out = file.starts_with("docs/changes/")
        || file == "docs/PORT.md"
        || file == "docs/DESIGN-PASS.md"
        || file == FROM_LOGS;
    file == "README.md" || (file.starts_with("docs/") && file.ends_with(".md") && !left_out)
}

/// The words of a text in backticks that are to be looked up: the text itself if it has no blank, else its paths.
fn checked_words(text: &str) -> Vec<&str> {
    let words: Vec<&str> = text.split_whitespace().collect();
    if let [word] = words[..] {
        return if is_name(word) && !is_foreign(word) { vec![word] } else { vec![] };
    }
    let is_path = |word: &&&str| OUR_FOLDERS.iter().any(|folder| word.starts_with(folder));
    words.iter().filter(is_path).copied().collect()
}

/// Where paths begin that are checked wherever they stand.
const OUR_FOLDERS: [&str; 8] = ["tools/", "crates/", "docs/", "rust/", "include/", "reference/", "bench/", ".ci/"];

fn is_foreign(word: &str) -> bool {
    NOT_OURS.iter().any(|(_, words)| words.contains(&word))
}

/// Whether a word looks like a name or a path: letters and digits with what joins them, and a letter in front.
fn is_name(word: &str) -> bool {
    let bare = word.trim_start_matches("./").trim_start_matches('.');
    let joins = |c: char| c.is_alphanumeric() || "-_./:*+′'₀₁₂₃".contains(c);
    let begins = bare.chars().next().is_some_and(|c| c.is_alphabetic());
    begins && bare.chars().all(joins) && bare.chars().count() > 1 && !bare.ends_with(':')
}

/// Whether a word is `FILE:LINE`, and the file has such a line.
fn is_line(root: &Path, word: &str) -> bool {
    let Some((file, line)) = word.rsplit_once(':') else { return false };
    let lines = read(&root.join(file)).map_or(0, |text| text.lines().count());
    line.parse().is_ok_and(|line: usize| 1 <= line && line <= lines)
}

impl Known {
    fn has(&self, word: &str) -> bool {
        let word = word.trim_start_matches("./").trim_end_matches('/');
        if word.contains("::") {
            return word.split("::").all(|part| self.words.contains(part));
        }
        let is_file = self.is_file(word) || self.is_file(&format!("{word}.antt"));
        self.words.contains(word) || is_file || self.is_in_crate(word) || self.is_member(word)
    }

    /// A path, whole or from some folder on; a part in capital letters and a star stand for anything.
    fn is_file(&self, word: &str) -> bool {
        let wanted: Vec<&str> = word.split('/').collect();
        self.files.iter().any(|file| {
            let parts: Vec<&str> = file.split('/').collect();
            (0..parts.len()).any(|from| {
                let rest = &parts[from..];
                rest.len() >= wanted.len() && wanted.iter().zip(rest).all(|(a, b)| matches(a, b))
            })
        })
    }

    /// `crate/Module`.
    fn is_in_crate(&self, word: &str) -> bool {
        let Some((folder, name)) = word.split_once('/') else { return false };
        let is_there = |inside| self.files.contains(&format!("crates/{folder}/{inside}/{name}.antt"));
        is_there("specs") || is_there("proofs")
    }

    /// `Record.field` or `Module.name`.
    fn is_member(&self, word: &str) -> bool {
        word.contains('.') && word.split('.').all(|part| self.words.contains(part))
    }
}

/// Whether a part of a path is meant: by itself, without the end of a script or source, or by a pattern.
fn matches(wanted: &str, found: &str) -> bool {
    let any = wanted.len() > 1 && wanted.chars().all(|c| c.is_ascii_uppercase() || c == '_');
    if any || wanted == found {
        return true;
    }
    let pattern = wanted.replace("NAME", "*").replace("LABEL", "*").replace("CRATE", "*").replace("-N", "-*");
    match pattern.split_once('*') {
        Some((front, end)) => {
            found.len() >= front.len() + end.len() && found.starts_with(front) && found.ends_with(end)
        }
        None => false,
    }
}

/// All files and words below a folder.
fn known(root: &Path) -> Result<Known, String> {
    let mut known = Known::default();
    walk(root, "", &mut known.files)?;
    known.files.sort();
    let files = known.files.clone();
    for file in &files {
        for part in file.split('/') {
            known.words.insert(part.split('.').next().unwrap_or("").to_string());
        }
        let end = file.rsplit('.').next().unwrap_or("");
        let script = !file.rsplit('/').next().unwrap_or("").contains('.');
        let source = ["antt", "rt", "rs", "c", "h", "edit", "toml"].contains(&end);
        if TESTS.iter().any(|start| file.starts_with(start)) {
            continue;
        }
        if source || (script && !file.starts_with("crates/")) {
            words_of(&read(&root.join(file)).unwrap_or_default(), end, &mut known.words);
            known.words.extend(impostors(root, file));
        } else if end == "csv" {
            let text = read(&root.join(file))?;
            let columns = text.lines().next().unwrap_or("").split(',');
            known.words.extend(columns.map(|column| column.to_string()));
        }
    }
    Ok(known)
}

fn walk(root: &Path, folder: &str, files: &mut Vec<String>) -> Result<(), String> {
    let entries = std::fs::read_dir(root.join(folder)).map_err(|error| format!("{folder}: {error}"))?;
    for entry in entries.flatten() {
        let name = entry.file_name().to_string_lossy().to_string();
        let path = if folder.is_empty() { name.clone() } else { format!("{folder}/{name}") };
        if !entry.path().is_dir() {
            files.push(path);
        } else if !LEFT_OUT.contains(&name.as_str()) {
            walk(root, &path, files)?;
        }
    }
    Ok(())
}

/// The names that a file declares; in languages other than antt, and for names without a hyphen, those that its code
/// uses.
fn words_of(text: &str, end: &str, words: &mut HashSet<String>) {
    for line in text.lines() {
        let code = line.trim_start();
        if code.starts_with("--") || code.starts_with("//") || (code.starts_with('#') && end != "c" && end != "h") {
            continue;
        }
        if end == "antt" {
            words.extend(declared(code));
        } else if end != "edit" {
            let parts = code.split(|c: char| !c.is_alphanumeric() && c != '_');
            words.extend(parts.filter(|part| !part.is_empty()).map(|part| part.to_string()));
            // with hyphens, as the pages that the command writes and cargo have them
            let parts = code.split(|c: char| !c.is_alphanumeric() && c != '_' && c != '-');
            let joined = |part: &&str| part.contains('-') && ["rs", "toml"].contains(&end);
            words.extend(parts.filter(joined).map(|part| part.to_string()));
        }
    }
}

/// The wrong programs and statements of a must-fail edit, by themselves and behind their crate.
fn impostors(root: &Path, file: &str) -> Vec<String> {
    let parts: Vec<&str> = file.split('/').collect();
    let ["crates", crate_name, "must-fail", label] = parts[..] else { return Vec::new() };
    let text = read(&root.join(file)).unwrap_or_default();
    let named = text.lines().filter_map(|line| line.strip_prefix("wrong: ")?.split_whitespace().next());
    let all: Vec<&str> = named.chain([label.trim_end_matches(".edit")]).collect();
    all.iter().flat_map(|name| [name.to_string(), format!("{crate_name}/{name}")]).collect()
}

/// The name that a line of antt declares: a law, a definition, a field, a constructor.
fn declared(code: &str) -> Option<String> {
    let mut words = code.split_whitespace().skip_while(|word| ["pub", "abbrev", "unfoldable"].contains(word));
    let first = words.next()?;
    let second = words.next().unwrap_or("");
    match first {
        "record" | "data" | "ruleset" => Some(second.to_string()),
        _ => (second == ":").then(|| first.to_string()),
    }
}

#[cfg(test)]
mod tests {
    use super::*;

    #[test]
    fn what_looks_like_a_name() {
        assert!(["price-list", "loadOf", "load_map", "load::load", "crates/load", "./plate"]
            .iter()
            .all(|w| is_name(w)));
        assert!(!["--check", "4^k", "N", "2,2", "≡"].iter().any(|word| is_name(word)));
        assert_eq!(checked_words("tools/index --check"), ["tools/index"]);
    }

    #[test]
    fn parts_of_paths() {
        assert!(matches("NAME", "load") && matches("LABEL.edit", "a.edit") && matches("*_cases", "run_cases"));
        assert!(!matches("load", "loads"));
    }

    #[test]
    fn names_that_antt_declares() {
        assert_eq!(declared("pub record Held (r : ℕ) : Type 0 where").as_deref(), Some("Held"));
        assert_eq!(declared("abbrev pub a-b : ℕ").as_deref(), Some("a-b"));
        assert_eq!(declared("a-b x = 1"), None);
    }
}
