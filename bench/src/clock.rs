//! The processor time of this thread. On a shared machine it leaves out the time in which others had the core.

#[repr(C)]
struct Timespec {
    seconds: i64,
    nanoseconds: i64,
}

/// Linux's number for it.
const THREAD_CPUTIME: i32 = 3;

extern "C" {
    fn clock_gettime(clock: i32, to: *mut Timespec) -> i32;
}

fn now() -> f64 {
    let mut time = Timespec { seconds: 0, nanoseconds: 0 };
    // The struct is Linux's own on 64 bits, and lives through the call.
    let failed = unsafe { clock_gettime(THREAD_CPUTIME, &mut time) };
    assert_eq!(failed, 0, "there is no clock of the thread");
    time.seconds as f64 * 1e9 + time.nanoseconds as f64
}

pub struct Clock(f64);

impl Clock {
    pub fn start() -> Self {
        Clock(now())
    }

    pub fn nanoseconds(&self) -> f64 {
        now() - self.0
    }
}
