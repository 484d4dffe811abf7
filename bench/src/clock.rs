//! Times several pieces of work against each other.
//!
//! Counted is the processor's time of this thread, without that of others. They take turns in short
//! batches, so that what others do to caches and clock rates troubles all alike, and of each the least
//! time counts.

use std::ffi::{c_int, c_long};
use std::time::Duration;

/// Long enough for the clock, short enough to be over before another program gets the processor.
const BATCH: Duration = Duration::from_micros(300);

const CLOCK_THREAD_CPUTIME_ID: c_int = 3;

#[repr(C)]
struct Timespec {
    seconds: i64,
    nanoseconds: c_long,
}

extern "C" {
    fn clock_gettime(clock: c_int, time: *mut Timespec) -> c_int;
}

/// The processor's time that this thread has had.
fn now() -> Duration {
    let mut time = Timespec {
        seconds: 0,
        nanoseconds: 0,
    };
    // SAFETY: the struct is the system's timespec on 64-bit Linux.
    let failed = unsafe { clock_gettime(CLOCK_THREAD_CPUTIME_ID, &mut time) };
    assert_eq!(failed, 0, "the thread's clock");
    Duration::new(time.seconds as u64, time.nanoseconds as u32)
}

type Work<'a> = Box<dyn FnMut() + 'a>;

struct Runner<'a> {
    work: Work<'a>,
    calls: u32,
    least: f64,
}

#[derive(Default)]
pub struct Race<'a> {
    runners: Vec<Runner<'a>>,
}

impl<'a> Race<'a> {
    pub fn add(&mut self, work: impl FnMut() + 'a) {
        self.runners.push(Runner {
            work: Box::new(work),
            calls: 1,
            least: f64::INFINITY,
        });
    }

    /// The least time of one call of each piece of work, in the order in which they were added.
    pub fn run(mut self, rounds: u32) -> Vec<f64> {
        for runner in &mut self.runners {
            runner.calibrate();
        }
        for _ in 0..rounds {
            self.runners.iter_mut().for_each(Runner::batch);
        }
        self.runners.iter().map(|runner| runner.least).collect()
    }
}

impl Runner<'_> {
    /// Finds how many calls make a batch.
    fn calibrate(&mut self) {
        while self.timed() < BATCH && self.calls < 1 << 20 {
            self.calls *= 2;
        }
    }

    fn timed(&mut self) -> Duration {
        let start = now();
        for _ in 0..self.calls {
            (self.work)();
        }
        now() - start
    }

    fn batch(&mut self) {
        let one = self.timed().as_secs_f64() / f64::from(self.calls);
        self.least = self.least.min(one);
    }
}
