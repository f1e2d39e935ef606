//! `rulmedei sample`: a map that anyone can make again from a seed, with its greys lowered to 240.

use rulmedei::{cells, lower, sample};

use crate::arguments::{Arguments, Takes};
use crate::failure::Failure;
use crate::maps;

pub const TAKES: Takes = Takes { valued: &["-o", "--seed", "--side"], plain: &[], files: (0, 0) };

pub fn run(arguments: &Arguments) -> Result<Vec<u8>, Failure> {
    let seed = arguments.number("--seed")?.unwrap_or(1);
    let side = arguments.number("--side")?.unwrap_or(32);
    let mut greys = vec![0; cells(256)];
    sample(seed, side, &mut greys).map_err(|refusal| Failure::by_engine(&format!("--side {side}"), refusal))?;
    greys.truncate(cells(side));
    lower(&mut greys);
    Ok(maps::text_of(side, &greys))
}
