//! Why the command ends without having done what it was asked: one line for a person, and a status.

use std::path::Path;
use std::{fmt, io};

use rulmedei::Refusal;

/// The line, without the command's name in front.
#[derive(Debug, PartialEq, Eq)]
pub enum Failure {
    /// The input is refused.
    Refused(String),
    /// The command was called in a wrong way.
    Usage(String),
    /// Something could not be read or written.
    InOut(String),
}

impl Failure {
    pub fn status(&self) -> u8 {
        match self {
            Failure::Refused(_) => 1,
            Failure::Usage(_) => 2,
            Failure::InOut(_) => 3,
        }
    }

    /// What the engine refused, by the sentence of its table.
    pub fn by_engine(what: &str, refusal: Refusal) -> Failure {
        Failure::Refused(format!("{what}: {} (refusal {})", refusal.sentence(), refusal.number()))
    }

    /// A file that could not be read or written.
    pub fn of_file(what: &str, did: &str, error: &io::Error) -> Failure {
        Failure::InOut(format!("{what}: {did}: {}", reason(error)))
    }
}

impl fmt::Display for Failure {
    fn fmt(&self, f: &mut fmt::Formatter<'_>) -> fmt::Result {
        let (Failure::Refused(line) | Failure::Usage(line) | Failure::InOut(line)) = self;
        f.write_str(line)
    }
}

/// The system's reason, in words.
fn reason(error: &io::Error) -> String {
    match error.kind() {
        io::ErrorKind::NotFound => "there is no such file or folder".to_string(),
        io::ErrorKind::IsADirectory => "it is a folder".to_string(),
        io::ErrorKind::BrokenPipe => "nobody reads it any more".to_string(),
        io::ErrorKind::StorageFull => "the disk is full".to_string(),
        _ => {
            let words = error.to_string();
            words.split(" (os error").next().unwrap_or_default().to_string()
        }
    }
}

/// A file's name as it stands in a message: on one line, whatever is in it.
pub fn shown(path: &Path) -> String {
    let name = path.to_string_lossy();
    name.chars().map(|letter| if letter.is_control() { '?' } else { letter }).collect()
}
