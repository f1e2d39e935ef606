//! Reads the arguments of a subcommand: its options, each at most once, and its files.

use std::ffi::{OsStr, OsString};
use std::path::PathBuf;

use crate::failure::Failure;

/// What a subcommand takes.
pub struct Takes {
    /// Options that a value follows.
    pub valued: &'static [&'static str],
    /// Options that stand by themselves.
    pub plain: &'static [&'static str],
    /// The fewest and the most files.
    pub files: (usize, usize),
}

/// What was given.
#[derive(Debug, Default)]
pub struct Arguments {
    options: Vec<(String, String)>,
    pub files: Vec<PathBuf>,
}

impl Arguments {
    /// Reads the words behind the subcommand's name. After `--` all are files.
    pub fn read(words: &[OsString], takes: &Takes) -> Result<Arguments, Failure> {
        let mut given = Arguments::default();
        let mut rest = words.iter();
        while let Some(word) = rest.next() {
            if word == "--" {
                given.files.extend(rest.by_ref().map(PathBuf::from));
            } else if word == "-" || !word.as_encoded_bytes().starts_with(b"-") {
                given.files.push(PathBuf::from(word));
            } else {
                given.option(text(word)?, takes, || rest.next())?;
            }
        }
        let (fewest, most) = takes.files;
        if given.files.len() < fewest {
            return Err(Failure::Usage(format!("{} is needed", if fewest == 1 { "a file" } else { "a second file" })));
        }
        if given.files.len() > most {
            return Err(Failure::Usage(format!("one file too many: '{}'", given.files[most].display())));
        }
        Ok(given)
    }

    /// Takes one option, with its value behind `=` or as the next word.
    fn option<'a>(
        &mut self,
        word: &str,
        takes: &Takes,
        next: impl FnOnce() -> Option<&'a OsString>,
    ) -> Result<(), Failure> {
        let (name, joined) = match word.split_once('=') {
            Some((name, value)) => (name, Some(value)),
            None => (word, None),
        };
        let value = if takes.valued.contains(&name) {
            match joined {
                Some(value) => value.to_string(),
                None => text(next().ok_or(Failure::Usage(format!("{name} needs a value")))?)?.to_string(),
            }
        } else if takes.plain.contains(&name) && joined.is_none() {
            String::new()
        } else {
            return Err(Failure::Usage(format!("there is no option '{word}' here")));
        };
        if self.has(name) {
            return Err(Failure::Usage(format!("{name} is given twice")));
        }
        self.options.push((name.to_string(), value));
        Ok(())
    }

    pub fn has(&self, name: &str) -> bool {
        self.value(name).is_some()
    }

    pub fn value(&self, name: &str) -> Option<&str> {
        self.options.iter().find(|(option, _)| option == name).map(|(_, value)| value.as_str())
    }

    /// The value of an option as a whole number, if it is given.
    pub fn number(&self, name: &str) -> Result<Option<u32>, Failure> {
        let Some(value) = self.value(name) else { return Ok(None) };
        let digits = !value.is_empty() && value.bytes().all(|byte| byte.is_ascii_digit());
        match value.parse() {
            Ok(number) if digits => Ok(Some(number)),
            _ => Err(Failure::Usage(format!("{name} takes a whole number up to {}, not '{value}'", u32::MAX))),
        }
    }

    /// Which of some words an option has; the first one, if it isn't given.
    pub fn one_of(&self, name: &str, words: &[&'static str]) -> Result<&'static str, Failure> {
        let Some(value) = self.value(name) else { return Ok(words[0]) };
        let found = words.iter().find(|word| **word == value);
        found.copied().ok_or(Failure::Usage(format!("{name} is one of {}, not '{value}'", words.join(", "))))
    }
}

/// A word that is no file's name.
fn text(word: &OsStr) -> Result<&str, Failure> {
    word.to_str().ok_or(Failure::Usage(format!("'{}' is not readable as text", word.to_string_lossy())))
}

#[cfg(test)]
mod tests {
    use super::*;

    const TAKES: Takes = Takes { valued: &["-f", "--level"], plain: &["--invert"], files: (0, 1) };

    fn read(words: &[&str]) -> Result<Arguments, Failure> {
        Arguments::read(&words.iter().map(OsString::from).collect::<Vec<_>>(), &TAKES)
    }

    #[test]
    fn options_and_files_mix() {
        let given = read(&["-f", "svg", "a.map", "--level=3", "--invert"]).unwrap();
        assert_eq!((given.value("-f"), given.number("--level")), (Some("svg"), Ok(Some(3))));
        assert!(given.has("--invert") && given.files == [PathBuf::from("a.map")]);
    }

    #[test]
    fn a_dash_is_a_file_and_two_end_the_options() {
        assert_eq!(read(&["-"]).unwrap().files, [PathBuf::from("-")]);
        assert_eq!(read(&["--", "-f"]).unwrap().files, [PathBuf::from("-f")]);
    }

    #[test]
    fn wrong_use_is_told() {
        for words in [&["-x"][..], &["-f"], &["a", "b"], &["--invert=1"], &["-f", "a", "-f", "b"]] {
            assert!(matches!(read(words), Err(Failure::Usage(_))), "{words:?}");
        }
        for level in ["", "+1", "-1", "1.5", "4294967296", "x"] {
            assert!(read(&["--level", level]).unwrap().number("--level").is_err(), "{level}");
        }
    }
}
