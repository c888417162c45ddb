//! What tells the time of a call.

use std::hint::black_box;
use std::time::{Duration, Instant};

/// All calls that are compared have the same.
#[derive(Clone, Copy)]
pub enum Timer {
    Clock,
    /// The time that this thread had the processor, so that other work on the machine does not count.
    Processor,
}

impl Timer {
    /// For calls of which the slowest takes so long.
    pub fn of(slowest: Duration) -> Timer {
        match slowest < Duration::from_millis(1) {
            true => Timer::Clock,
            false => Timer::Processor,
        }
    }

    /// What the call gives, and its time.
    pub fn time<R>(self, call: impl FnOnce() -> R) -> (R, Duration) {
        match self {
            Timer::Clock => {
                let start = Instant::now();
                let result = black_box(call());
                (result, start.elapsed())
            }
            Timer::Processor => {
                let before = processor_time();
                let result = black_box(call());
                (result, processor_time() - before)
            }
        }
    }
}

/// The time that this thread has had the processor.
fn processor_time() -> Duration {
    #[repr(C)]
    struct Time {
        seconds: i64,
        nanoseconds: i64,
    }
    unsafe extern "C" {
        fn clock_gettime(clock: i32, time: *mut Time) -> i32;
    }
    /// The clock of this thread, on Linux.
    const THREAD: i32 = 3;

    let mut time = Time {
        seconds: 0,
        nanoseconds: 0,
    };
    // SAFETY: the pointer is valid, and the struct is laid out as on 64-bit Linux.
    let failed = unsafe { clock_gettime(THREAD, &mut time) };
    assert_eq!(failed, 0, "no processor time on this machine");
    Duration::new(time.seconds as u64, time.nanoseconds as u32)
}
