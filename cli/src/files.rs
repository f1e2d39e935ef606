//! Reads a whole file or standard input, and writes a whole output. What stands under a name is whole at every time: a
//! file is written beside it, synced, and then renamed. An output that cannot be written is never cut short in silence.

use std::fs::{self, File, OpenOptions};
use std::io::{self, Read, Write};
use std::path::{Path, PathBuf};

use crate::failure::{shown, Failure};

/// More bytes than any map, sketch, picture or list has, with room for white space and comments.
const LONGEST: usize = 16 << 20;

/// A file that was read.
pub struct Input {
    /// Its name in messages.
    pub name: String,
    pub bytes: Vec<u8>,
}

/// Reads a file; without one, or for `-`, standard input.
pub fn read(path: Option<&PathBuf>) -> Result<Input, Failure> {
    let (name, bytes) = match path.filter(|path| path.as_os_str() != "-") {
        Some(path) => (shown(path), File::open(path).and_then(read_all)),
        None => ("standard input".to_string(), read_all(io::stdin())),
    };
    let bytes = bytes.map_err(|error| Failure::of_file(&name, "could not be read", &error))?;
    if bytes.len() > LONGEST {
        return Err(Failure::Refused(format!(
            "{name}: longer than {LONGEST} bytes, so it is nothing that is read here"
        )));
    }
    Ok(Input { name, bytes })
}

/// All bytes, or just more than the longest input has.
fn read_all(from: impl Read) -> io::Result<Vec<u8>> {
    let mut bytes = Vec::new();
    from.take(LONGEST as u64 + 1).read_to_end(&mut bytes)?;
    Ok(bytes)
}

/// Writes an output to a file; without one, or for `-`, to standard output.
pub fn write(path: Option<&str>, bytes: &[u8]) -> Result<(), Failure> {
    let Some(path) = path.filter(|path| *path != "-") else {
        let mut output = io::stdout().lock();
        let written = output.write_all(bytes).and_then(|()| output.flush());
        return written.map_err(|error| Failure::of_file("standard output", "not all was written", &error));
    };
    let path = Path::new(path);
    write_file(path, bytes).map_err(|error| Failure::of_file(&shown(path), "was not written", &error))
}

/// A link is followed; what is there and no file, as a device or a pipe, is written as it stands.
fn write_file(path: &Path, bytes: &[u8]) -> io::Result<()> {
    match fs::metadata(path) {
        Ok(about) if about.is_dir() => Err(io::ErrorKind::IsADirectory.into()),
        Ok(about) if !about.is_file() => OpenOptions::new().write(true).open(path)?.write_all(bytes),
        Ok(about) => replace(&fs::canonicalize(path)?, bytes, Some(about.permissions())),
        Err(_) => replace(path, bytes, None),
    }
}

/// Writes a file beside the one that is meant, and gives it its name when all of it is on the disk.
fn replace(path: &Path, bytes: &[u8], permissions: Option<fs::Permissions>) -> io::Result<()> {
    let (beside, mut file) = create_beside(path)?;
    let written = file.write_all(bytes).and_then(|()| match permissions {
        Some(permissions) => file.set_permissions(permissions),
        None => Ok(()),
    });
    let done = written.and_then(|()| file.sync_all()).and_then(|()| fs::rename(&beside, path));
    if done.is_err() {
        // the error is told; that the unfinished file could not be removed as well changes nothing
        let _ = fs::remove_file(&beside);
    }
    done
}

/// A new file in the same folder, under a name that nobody has.
fn create_beside(path: &Path) -> io::Result<(PathBuf, File)> {
    let name = path.file_name().ok_or(io::Error::from(io::ErrorKind::IsADirectory))?;
    let mut tries = 0;
    loop {
        let mut beside = name.to_os_string();
        beside.push(format!(".{}-{tries}.part", std::process::id()));
        let beside = path.with_file_name(beside);
        match OpenOptions::new().write(true).create_new(true).open(&beside) {
            Ok(file) => return Ok((beside, file)),
            Err(error) if error.kind() == io::ErrorKind::AlreadyExists && tries < 99 => tries += 1,
            Err(error) => return Err(error),
        }
    }
}
