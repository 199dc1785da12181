//! Medians of several rounds.

use std::ffi::{c_int, c_long};
use std::time::{Duration, Instant};

/// The rounds of a measurement.
pub const ROUNDS: usize = 7;

/// The rounds of one whose first round takes over a second.
pub const FEW_ROUNDS: usize = 3;

/// glibc's `struct timespec`.
#[repr(C)]
#[derive(Default)]
struct Time {
    seconds: c_long,
    nanoseconds: c_long,
}

extern "C" {
    fn clock_gettime(clock: c_int, time: *mut Time) -> c_int;
}

const CLOCK_THREAD_CPUTIME_ID: c_int = 3;

/// How long the thread has run. Time in which it does not run is not counted.
fn processor_time() -> Duration {
    let mut time = Time::default();
    // SAFETY: the place is ours.
    let answer = unsafe { clock_gettime(CLOCK_THREAD_CPUTIME_ID, &mut time) };
    assert_eq!(answer, 0, "every thread has this clock");
    Duration::new(time.seconds as u64, time.nanoseconds as u32)
}

/// The median processor time of each of some tasks in seconds, where `task` does the one with a number.
pub fn medians(tasks: usize, task: impl FnMut(usize)) -> Vec<f64> {
    medians_by(processor_time, tasks, task)
}

/// The same by the clock on the wall, for tasks that other processes do.
pub fn wall_medians(tasks: usize, task: impl FnMut(usize)) -> Vec<f64> {
    let start = Instant::now();
    medians_by(|| start.elapsed(), tasks, task)
}

/// The tasks take turns, so that a change of the machine's speed meets all, and every other round they take them in
/// reverse, so that what one task leaves in the caches meets all.
fn medians_by(clock: impl Fn() -> Duration, tasks: usize, mut task: impl FnMut(usize)) -> Vec<f64> {
    let mut times = vec![Vec::new(); tasks];
    let mut rounds = ROUNDS;
    while times[0].len() < rounds {
        let reversed = times[0].len() % 2 == 1;
        for turn in 0..tasks {
            let i = if reversed { tasks - 1 - turn } else { turn };
            let began = clock();
            task(i);
            times[i].push((clock() - began).as_secs_f64());
        }
        if times.iter().map(|times| times[0]).sum::<f64>() > 1.0 {
            rounds = FEW_ROUNDS;
        }
    }
    times.into_iter().map(median).collect()
}

fn median(mut times: Vec<f64>) -> f64 {
    times.sort_by(f64::total_cmp);
    times[times.len() / 2]
}
