//! The programs `plate` and `two_heads`, each as a function from its input to what it prints.

use crate::answers::Refusal;
use crate::knit::PLAIN;
use crate::map_text::map_text;
use crate::run::{run, run_two_heads, Run};

/// The longest input, in bytes; a longer one is refused before all else (S 14.1).
pub const LONGEST_INPUT: usize = 4_099;

/// The room for greys, so that side 64 is refused with 2 (S 14.1).
pub const GREYS_ROOM: usize = 1_024;

/// The program `plate`: the drill list of the finished map, or the line of a refusal (S 14.1). The cloth is plain.
pub fn plate(input: &[u8]) -> Vec<u8> {
    printed(list_of(input, run))
}

/// The program `two_heads`: the same with two heads (S 14.6).
pub fn two_heads_text(input: &[u8]) -> Vec<u8> {
    printed(list_of(input, run_two_heads))
}

/// A list, or the line of a refusal.
fn printed(list: Result<Vec<u8>, Refusal>) -> Vec<u8> {
    list.unwrap_or_else(|refusal| format!("refused,{}\n", refusal.number()).into_bytes())
}

/// The list of what a map text is run to, with the refusal kept apart.
fn list_of(input: &[u8], run: fn(u32, u32, &[u8]) -> Result<Run, Refusal>) -> Result<Vec<u8>, Refusal> {
    if input.len() > LONGEST_INPUT {
        return Err(Refusal::LongInput);
    }
    let mut greys = [0; GREYS_ROOM];
    let side = map_text(input, &mut greys)?;
    Ok(run(side, PLAIN, &greys)?.list)
}
