//! Processor time, which doesn't pass while other programs run. Linux.

use std::time::Duration;

#[repr(C)]
struct Time {
    seconds: i64,
    nanoseconds: i64,
}

extern "C" {
    fn clock_gettime(clock: i32, time: *mut Time) -> i32;
}

const THREAD: i32 = 3;

fn read(clock: i32) -> Option<Duration> {
    let mut time = Time { seconds: 0, nanoseconds: 0 };
    // It writes the two numbers, and nothing else.
    let failed = unsafe { clock_gettime(clock, &mut time) } != 0;
    (!failed).then(|| Duration::new(time.seconds as u64, time.nanoseconds as u32))
}

/// The time of this thread.
pub fn thread() -> Option<Duration> {
    read(THREAD)
}

/// What passed between two readings.
pub fn between(start: Option<Duration>, end: Option<Duration>) -> Option<Duration> {
    end?.checked_sub(start?)
}
