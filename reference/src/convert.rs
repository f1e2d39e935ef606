//! The program `convert`, as a function from its input to what it prints.

use crate::answers::Refusal;
use crate::lowering::lower_text;

/// Room for the greys of the largest side; and for its text, a line with the side and at most four bytes for each grey.
const GREYS: usize = 65_536;
const TEXT: usize = 4 + 4 * GREYS;

/// Reads a stored map text of any of the eight sides and prints the text that Lower Text writes for it; or, where it is
/// refused, the line that `plate` has for that.
pub fn convert(input: &[u8]) -> Vec<u8> {
    match text_of(input) {
        Ok(text) => text,
        Err(refusal) => format!("refused,{}\n", refusal.number()).into_bytes(),
    }
}

/// The same, with the refusal kept apart. No map has too many greys, or too long a text, for these buffers.
fn text_of(input: &[u8]) -> Result<Vec<u8>, Refusal> {
    let mut text = vec![0; TEXT];
    let length = lower_text(input, &mut [0; GREYS], &mut text)?;
    text.truncate(length);
    Ok(text)
}
