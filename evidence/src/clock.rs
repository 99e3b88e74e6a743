//! The thread's processor time: what other programs use of a shared machine
//! does not count.

#![allow(unsafe_code)]

use std::time::Duration;

/// `struct timespec` of 64-bit Linux, the only one that the archive is for.
#[repr(C)]
struct Timespec {
    seconds: i64,
    nanoseconds: i64,
}

const CLOCK_THREAD_CPUTIME_ID: i32 = 3;

unsafe extern "C" {
    fn clock_gettime(clock: i32, time: *mut Timespec) -> i32;
}

/// Processor time that this thread has used.
///
/// # Panics
/// When the system has no such clock.
#[must_use]
pub fn processor_time() -> Duration {
    let mut time = Timespec {
        seconds: 0,
        nanoseconds: 0,
    };
    // Sound: the call writes one timespec, and `time` is one.
    let status = unsafe { clock_gettime(CLOCK_THREAD_CPUTIME_ID, &raw mut time) };
    assert_eq!(status, 0, "no clock of the thread's processor time");
    Duration::new(time.seconds as u64, time.nanoseconds as u32)
}
