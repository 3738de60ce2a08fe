//! How time is measured: the processor's, by medians of runs in turn, in one process.

use std::fmt::Debug;

pub const RUNS: usize = 11;

/// The median seconds of each call. They run in turn, and after each turn `agree` looks at their answers.
pub fn alternate<const N: usize>(
    calls: [&mut dyn FnMut(); N],
    agree: impl Fn() -> Result<(), String>,
) -> Result<[f64; N], String> {
    alternate_often(RUNS, calls, agree)
}

/// The same with another number of runs.
pub fn alternate_often<const N: usize>(
    runs: usize,
    mut calls: [&mut dyn FnMut(); N],
    agree: impl Fn() -> Result<(), String>,
) -> Result<[f64; N], String> {
    let mut times = [(); N].map(|()| Vec::new());
    for _ in 0..runs {
        turn(&mut calls, &mut times);
        agree()?;
    }
    Ok(times.map(median))
}

fn turn(calls: &mut [&mut dyn FnMut()], times: &mut [Vec<f64>]) {
    for (call, times) in calls.iter_mut().zip(times) {
        times.push(seconds(call).1);
    }
}

/// The answer of a call, and how long it ran.
pub fn seconds<T>(call: impl FnOnce() -> T) -> (T, f64) {
    let start = processor_seconds();
    let answer = call();
    (answer, processor_seconds() - start)
}

pub fn median(mut times: Vec<f64>) -> f64 {
    times.sort_by(f64::total_cmp);
    times[times.len() / 2]
}

/// An error that shows both answers where they differ.
pub fn same<T: Debug + PartialEq>(what: &str, ours: T, other: T) -> Result<(), String> {
    if ours == other {
        return Ok(());
    }
    Err(format!("{what}: {ours:?} and {other:?} differ"))
}

/// How long this thread has run on a processor: other work on the machine counts little.
fn processor_seconds() -> f64 {
    let mut time = Timespec::default();
    // SAFETY: the structure is the one of 64-bit Linux, and is written to alone.
    let failed = unsafe { clock_gettime(CLOCK_THREAD_CPUTIME_ID, &mut time) };
    assert_eq!(failed, 0, "the thread has no clock");
    time.seconds as f64 + time.nanoseconds as f64 / 1e9
}

const CLOCK_THREAD_CPUTIME_ID: i32 = 3;

#[repr(C)]
#[derive(Default)]
struct Timespec {
    seconds: i64,
    nanoseconds: i64,
}

extern "C" {
    fn clock_gettime(clock: i32, time: &mut Timespec) -> i32;
}
