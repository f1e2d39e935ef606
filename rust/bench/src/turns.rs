//! Runs in turn, and their medians.

use crate::clock::{median, Time};

/// How often each of several is run.
const RUNS: usize = 9;

/// Something to be measured, by its name. A run makes ready what it needs, has N stretches timed, and gives what it
/// leaves.
pub struct Runner<'a, const N: usize, T> {
    pub name: &'a str,
    pub run: &'a dyn Fn() -> ([Time; N], T),
}

/// The median times of one and of others, run in turn; and what they leave. In every turn the others must leave what
/// the first one left, or this panics.
pub fn in_turn<const N: usize, T: PartialEq>(first: Runner<N, T>, others: &[Runner<N, T>]) -> (Vec<[Time; N]>, T) {
    let mut times = vec![Vec::new(); 1 + others.len()];
    let mut turn = || {
        let (time, left) = (first.run)();
        times[0].push(time);
        for (place, other) in others.iter().enumerate() {
            let (time, other_left) = (other.run)();
            times[1 + place].push(time);
            assert!(left == other_left, "{} leaves something else than {}", other.name, first.name);
        }
        left
    };
    let mut left = turn();
    for _ in 1..RUNS {
        left = turn();
    }
    (times.into_iter().map(medians).collect(), left)
}

/// The median of each of the N stretches.
fn medians<const N: usize>(times: Vec<[Time; N]>) -> [Time; N] {
    std::array::from_fn(|stretch| median(&times.iter().map(|time| time[stretch]).collect::<Vec<Time>>()))
}
