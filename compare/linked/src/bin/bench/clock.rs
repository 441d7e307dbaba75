//! Times of work.

use std::time::{Duration, Instant};

/// Work is repeated for this time, and so often at least.
const TIME: Duration = Duration::from_secs(3);
const AT_LEAST: u32 = 20;
const READINGS: u32 = 10_000;

/// Nanoseconds of work for which it is worth while to read the thread's clock.
const LONG: f64 = 40_000.0;
/// The system's numbers of its clocks: the wall's, which is read quickly and leaves the processor as it
/// was, and the thread's, which stands still while other work of the machine is in the way.
const WALL: i32 = 1;
const THREAD: i32 = 3;

/// One of the system's clocks, and the nanoseconds that reading it takes.
pub struct Clock {
    number: i32,
    own: f64,
}

#[repr(C)]
#[derive(Default)]
struct SystemTime {
    seconds: i64,
    nanoseconds: i64,
}

extern "C" {
    fn clock_gettime(number: i32, time: &mut SystemTime) -> i32;
}

pub fn repeat(mut work: impl FnMut()) {
    let began = Instant::now();
    for _ in 0..AT_LEAST {
        work();
    }
    while began.elapsed() < TIME {
        work();
    }
}

impl Clock {
    /// For short work, or such as was not timed before.
    pub fn first() -> Clock {
        Clock::new(WALL)
    }

    /// For work that takes about so many nanoseconds.
    pub fn suited_to(time: f64) -> Clock {
        Clock::new(if time < LONG { WALL } else { THREAD })
    }

    fn new(number: i32) -> Clock {
        let mut clock = Clock { number, own: 0.0 };
        clock.own = (0..READINGS).map(|_| clock.time(|| ())).fold(f64::INFINITY, f64::min);
        clock
    }

    /// The nanoseconds that work takes, less what the clock takes.
    pub fn time<T>(&mut self, work: impl FnOnce() -> T) -> f64 {
        let began = self.now();
        let done = work();
        let time = (self.now() - began) as f64 - self.own;
        // What was made goes after the clock is read.
        drop(done);
        time
    }

    fn now(&self) -> i64 {
        let mut time = SystemTime::default();
        // The system writes the time there and nothing else.
        let failed = unsafe { clock_gettime(self.number, &mut time) };
        assert_eq!(failed, 0, "the system has this clock");
        time.seconds * 1_000_000_000 + time.nanoseconds
    }
}
