//! The benchmark (`bench/run`): the library beside the team's own bounds-checked Rust, and some of its calls beside
//! others. It prints one table, in Markdown.
//!
//! The conditions. Release builds, in one process, on one thread. What is compared is run in turn, the library first,
//! nine times, and each time in the table is the median of the nine. All buffers are new in each run, written once and
//! cleared before the clock starts, so that no page is first touched in a measured stretch. Times are of the processor,
//! and ratios are of these; the wall clock's stand in columns of their own. What is short is repeated within the
//! stretch, on the same buffers, so that this lasts some milliseconds. After each run all buffers and the number of
//! holes are compared with what the library left in the same turn, and the benchmark panics where they differ.
//!
//! The greys are the sample of seed 1, lowered to 240, the side is 256 and the cloth plain where nothing else is said.
//!
//! There are two in Rust, both with the pyramid by quarters, as the library has it, with plain indexing, so that every
//! access is bounds-checked, and without unsafe code. `plain` is the team's own Rust exactly as it stood before request
//! 14, whose subject was the library's speed: beside it one sees what that request brought. `stepped` has besides every
//! step that the library has taken with that request, each in the quickest of several ways to write it, so that the
//! choice is against the library: beside it one sees what index tests cost.
//!
//! With `nothing`, `library`, `plain` or `stepped` as its argument the program prepares the greys and the buffers, and
//! has the one named make all holes, once: `bench/count` has the instructions of that counted.

mod buffers;
mod calls;
mod clock;
mod count;
mod engines;
mod growth;
mod heads;
mod plain;
mod rules;
mod runs;
mod stepped;
mod table;
mod texts;
mod turns;

use std::env;
use std::process::ExitCode;

const POWER: usize = 8;
const SIDE: u32 = 1 << POWER;
const SEED: u32 = 1;

/// The names of the two cloths, by knit.
const CLOTHS: [&str; 2] = ["plain", "ribbed"];
const PLAIN_CLOTH: usize = 0;

fn main() -> ExitCode {
    let words: Vec<String> = env::args().skip(1).collect();
    match words.as_slice() {
        [] => table::print(&[runs::rows(), growth::rows(), heads::rows(), calls::rows(), texts::rows()].concat()),
        [by] if count::once(by) => (),
        _ => {
            eprintln!("use: bench [nothing | library | plain | stepped]");
            return ExitCode::from(2);
        }
    }
    ExitCode::SUCCESS
}

/// The greys of a map with this power, by the library's own calls.
fn sampled(power: usize) -> Vec<u8> {
    let mut greys = vec![0; 1 << (2 * power)];
    rulmedei::sample(SEED, 1 << power, &mut greys).expect("sample");
    rulmedei::lower(&mut greys);
    greys
}
