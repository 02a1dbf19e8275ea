//! Processor time of this process.

#[repr(C)]
struct Timespec {
    seconds: i64,
    nanoseconds: i64,
}

extern "C" {
    fn clock_gettime(clock: i32, time: *mut Timespec) -> i32;
}

/// CLOCK_PROCESS_CPUTIME_ID of Linux.
const PROCESS: i32 = 2;

fn now() -> f64 {
    let mut time = Timespec {
        seconds: 0,
        nanoseconds: 0,
    };
    assert_eq!(unsafe { clock_gettime(PROCESS, &mut time) }, 0);
    time.seconds as f64 + time.nanoseconds as f64 * 1e-9
}

/// Runs from its start, but for the times when it is stopped.
pub struct Clock {
    /// When it was started, moved on by the times that it was stopped.
    start: f64,
    stopped: f64,
}

impl Clock {
    pub fn start() -> Self {
        Self {
            start: now(),
            stopped: 0.0,
        }
    }

    pub fn stop(&mut self) {
        self.stopped = now();
    }

    pub fn go_on(&mut self) {
        self.start += now() - self.stopped;
    }

    pub fn seconds(&self) -> f64 {
        now() - self.start
    }
}
