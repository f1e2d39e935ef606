//! Whether the compiler keeps a store: ends with 0 if it does, and with 1 if it does not (`tools/test-compiler`).
//!
//! rustc 1.95.0 at opt-level 2 and 3 loses what is stored in `by`: it inlines `is_fourth` into `copied`, and then its
//! pass SimplifyComparisonIntegral takes the comparison away, though `by` still needs it. At opt-level 1 it does not
//! inline before LLVM, and the store stays. There is no unsafe code here.

use std::process::ExitCode;

#[derive(Default)]
struct Turns {
    turn: u64,
    by: u64,
}

impl Turns {
    /// Whether this is a fourth turn; `by` counts them.
    fn is_fourth(&mut self) -> bool {
        self.turn += 1;
        let now = self.turn % 4 == 0;
        self.by += now as u64;
        now
    }

    /// A copy at each fourth turn.
    fn copied(&mut self, bytes: &Vec<u8>) -> Option<Vec<u8>> {
        if self.is_fourth() {
            Some(bytes.clone())
        } else {
            None
        }
    }
}

fn main() -> ExitCode {
    let bytes = vec![1, 2, 3];
    let mut turns = Turns::default();
    let copies = (0..100).filter(|_| turns.copied(&bytes).is_some()).count();
    println!("{} turns, {copies} copies, {} counted", turns.turn, turns.by);
    ExitCode::from(u8::from((turns.turn, copies, turns.by) != (100, 25, 25)))
}
