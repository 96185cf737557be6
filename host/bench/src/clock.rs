//! The processor time of this process, which other processes do not lengthen.

/// `struct timespec` of the C library that the standard library links.
#[repr(C)]
struct Timespec {
    seconds: i64,
    nanoseconds: i64,
}

const CLOCK_PROCESS_CPUTIME_ID: i32 = 2;

extern "C" {
    fn clock_gettime(clock: i32, time: *mut Timespec) -> i32;
}

/// Seconds of processor time so far.
pub fn processor_seconds() -> f64 {
    let mut time = Timespec { seconds: 0, nanoseconds: 0 };
    // The call writes one timespec, which lives here.
    let status = unsafe { clock_gettime(CLOCK_PROCESS_CPUTIME_ID, &mut time) };
    assert_eq!(status, 0, "the system has no clock of processor time");
    time.seconds as f64 + time.nanoseconds as f64 / 1e9
}

/// Seconds of one call, from so many.
pub fn seconds_of_one(calls: usize, mut call: impl FnMut()) -> f64 {
    let start = processor_seconds();
    for _ in 0..calls {
        call();
    }
    (processor_seconds() - start) / calls as f64
}
