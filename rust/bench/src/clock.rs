//! Times: of the processor, which ratios are made of, and of the wall clock beside it.

use std::ffi::{c_int, c_long};
use std::time::Instant;

/// C's `struct timespec` on x86-64 Linux.
#[repr(C)]
struct Timespec {
    seconds: c_long,
    nanoseconds: c_long,
}

/// Linux's number for the time that all threads of this process have spent on a processor.
const CLOCK_PROCESS_CPUTIME_ID: c_int = 2;

extern "C" {
    /// C's own: writes what a clock shows; 0 if it did.
    fn clock_gettime(clock: c_int, time: *mut Timespec) -> c_int;
}

fn processor_seconds() -> f64 {
    let mut time = Timespec { seconds: 0, nanoseconds: 0 };
    // SAFETY: the pointer is that of a local laid out as C has it, and the call keeps nothing of it.
    let status = unsafe { clock_gettime(CLOCK_PROCESS_CPUTIME_ID, &mut time) };
    assert_eq!(status, 0, "there is no clock of processor time");
    time.seconds as f64 + time.nanoseconds as f64 / 1e9
}

/// How long something took, in seconds.
#[derive(Clone, Copy)]
pub struct Time {
    pub processor: f64,
    pub wall: f64,
}

impl Time {
    /// The time of one of so many parts.
    pub fn over(self, parts: usize) -> Time {
        Time { processor: self.processor / parts as f64, wall: self.wall / parts as f64 }
    }

    /// The time without a part of it.
    pub fn less(self, part: Time) -> Time {
        Time { processor: self.processor - part.processor, wall: self.wall - part.wall }
    }
}

/// How long the work takes, and what it gives.
pub fn timed<T>(work: impl FnOnce() -> T) -> (Time, T) {
    let wall = Instant::now();
    let processor = processor_seconds();
    let given = work();
    let processor = processor_seconds() - processor;
    (Time { processor, wall: wall.elapsed().as_secs_f64() }, given)
}

/// The median of the processor times, and that of the wall times.
pub fn median(times: &[Time]) -> Time {
    let middle = |of: fn(&Time) -> f64| {
        let mut sorted: Vec<f64> = times.iter().map(of).collect();
        sorted.sort_by(f64::total_cmp);
        sorted[sorted.len() / 2]
    };
    Time { processor: middle(|time| time.processor), wall: middle(|time| time.wall) }
}
