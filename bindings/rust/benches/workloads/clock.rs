//! Processor time and memory of this process.

use std::fs;
use std::time::{Duration, Instant};

/// Measures processor time and wall-clock time between `start` and `stop`.
#[derive(Debug, Default)]
pub struct Clock {
    begun: Option<(Duration, Instant)>,
    pub processor: Duration,
    pub wall: Duration,
}

impl Clock {
    pub fn start(&mut self) {
        self.begun = Some((processor(), Instant::now()));
    }

    pub fn stop(&mut self) {
        if let Some((processor_begun, wall_begun)) = self.begun.take() {
            self.processor += processor().saturating_sub(processor_begun);
            self.wall += wall_begun.elapsed();
        }
    }
}

#[repr(C)]
struct TimeSpec {
    seconds: i64,
    nanoseconds: i64,
}

unsafe extern "C" {
    fn clock_gettime(clock: i32, time: *mut TimeSpec) -> i32;
}

/// The number of the clock of this thread's processor time.
const THREAD_CLOCK: i32 = 3;

fn processor() -> Duration {
    let mut time = TimeSpec {
        seconds: 0,
        nanoseconds: 0,
    };
    // SAFETY: the C library writes a `timespec` there, which has 16 bytes on x86-64.
    unsafe { clock_gettime(THREAD_CLOCK, &mut time) };
    Duration::new(time.seconds as u64, time.nanoseconds as u32)
}

/// The peak memory of this process, in KB.
pub fn peak() -> u64 {
    let text = fs::read_to_string("/proc/self/status").unwrap_or_default();
    let line = text.lines().find_map(|line| line.strip_prefix("VmHWM:"));
    let number = line.and_then(|line| line.trim().trim_end_matches(" kB").parse().ok());
    number.unwrap_or(0)
}
