//! The time that a thread has had a core to itself.

use std::time::Duration;

/// Of Linux, where a C `long` has 64 bits.
const THREAD_CPU_TIME: i32 = 3;

#[repr(C)]
struct Timespec {
    seconds: i64,
    nanoseconds: i64,
}

extern "C" {
    fn clock_gettime(clock: i32, time: *mut Timespec) -> i32;
}

/// How long this thread has been running, not counting when it had to wait for a core.
pub fn now() -> Duration {
    let mut time = Timespec {
        seconds: 0,
        nanoseconds: 0,
    };
    // SAFETY: `time` is what the function expects on 64-bit Linux, and is ours alone.
    let answer = unsafe { clock_gettime(THREAD_CPU_TIME, &mut time) };
    assert_eq!(answer, 0, "the clock of the thread");
    Duration::new(time.seconds as u64, time.nanoseconds as u32)
}
