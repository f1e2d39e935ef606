//! The programs' inputs.

use reference::stored::files;
use reference::Refusal;

/// A program reads its input into one buffer.
const BUFFER: usize = 65_536;

/// For S 14.1.
#[test]
fn every_input_fits_the_buffer() -> Result<(), Refusal> {
    let files = files()?;
    let inputs: Vec<_> = files.iter().filter(|(path, _)| path.ends_with("/stdin")).collect();
    assert_eq!(inputs.len(), 10);
    for (path, bytes) in inputs {
        assert!(bytes.len() < BUFFER, "{path} has {} bytes", bytes.len());
    }
    Ok(())
}
