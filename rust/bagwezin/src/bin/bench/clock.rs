//! The time that this thread had of a processor: what other programs take of a shared core is left out.

/// C's `struct timespec` on x86-64 Linux.
#[repr(C)]
struct Timespec {
    seconds: i64,
    nanoseconds: i64,
}

/// CLOCK_THREAD_CPUTIME_ID of Linux.
const THREAD_TIME: i32 = 3;

extern "C" {
    fn clock_gettime(clock: i32, time: *mut Timespec) -> i32;
}

/// Microseconds of this thread so far.
fn now() -> f64 {
    let mut time = Timespec { seconds: 0, nanoseconds: 0 };
    // SAFETY: the pointer is that of a `timespec` of this frame, which the call may write.
    let failed = unsafe { clock_gettime(THREAD_TIME, &mut time) };
    assert_eq!(failed, 0, "Linux has this clock");
    time.seconds as f64 * 1e6 + time.nanoseconds as f64 / 1e3
}

/// Microseconds for each of so many runs.
pub fn time(runs: usize, all: impl FnOnce()) -> f64 {
    let begin = now();
    all();
    (now() - begin) / runs as f64
}
