//! Processor time and wall time.

use std::ops::Sub;
use std::time::Instant;

/// Microseconds that the processor worked for this process and those that it
/// waited for, and microseconds that went by.
#[derive(Clone, Copy, Debug, Default)]
pub struct Time {
    pub cpu: f64,
    pub wall: f64,
}

impl Sub for Time {
    type Output = Time;

    fn sub(self, other: Time) -> Time {
        Time {
            cpu: self.cpu - other.cpu,
            wall: self.wall - other.wall,
        }
    }
}

impl Time {
    /// That of one of so many calls.
    pub fn of_each(self, calls: usize) -> Time {
        self.scaled(1.0 / calls as f64)
    }

    /// That of so many such calls.
    pub fn times(self, calls: usize) -> Time {
        self.scaled(calls as f64)
    }

    fn scaled(self, factor: f64) -> Time {
        Time {
            cpu: self.cpu * factor,
            wall: self.wall * factor,
        }
    }
}

/// How long this takes.
pub fn time(work: impl FnOnce()) -> Time {
    let (started, worked) = (Instant::now(), cpu());
    work();
    Time {
        cpu: cpu() - worked,
        wall: started.elapsed().as_secs_f64() * 1e6,
    }
}

/// Of each alone.
pub fn median(times: &[Time]) -> Time {
    let middle = |part: fn(&Time) -> f64| {
        let mut sorted: Vec<f64> = times.iter().map(part).collect();
        sorted.sort_by(f64::total_cmp);
        sorted[sorted.len() / 2]
    };
    Time {
        cpu: middle(|time| time.cpu),
        wall: middle(|time| time.wall),
    }
}

/// What the C library says, on 64-bit Linux.
mod c {
    #[repr(C)]
    pub struct Timespec {
        pub seconds: i64,
        pub nanoseconds: i64,
    }

    #[repr(C)]
    #[derive(Default)]
    pub struct Rusage {
        /// Seconds and microseconds of the processes, then of the system for
        /// them.
        pub times: [i64; 4],
        pub others: [i64; 14],
    }

    pub const PROCESS_CPU: i32 = 2;
    pub const CHILDREN: i32 = -1;

    extern "C" {
        pub fn clock_gettime(clock: i32, time: *mut Timespec) -> i32;
        pub fn getrusage(who: i32, usage: *mut Rusage) -> i32;
    }
}

/// Microseconds of this process and of those that it waited for.
fn cpu() -> f64 {
    let mut own = c::Timespec {
        seconds: 0,
        nanoseconds: 0,
    };
    let mut children = c::Rusage::default();
    // SAFETY: both write the struct that they are given, and no more.
    let failed = unsafe {
        c::clock_gettime(c::PROCESS_CPU, &mut own) | c::getrusage(c::CHILDREN, &mut children)
    };
    assert_eq!(failed, 0, "the clocks are there");
    let [seconds, microseconds, system_seconds, system_microseconds] = children.times;
    let seconds = own.seconds + seconds + system_seconds;
    let microseconds = microseconds + system_microseconds;
    seconds as f64 * 1e6 + microseconds as f64 + own.nanoseconds as f64 / 1e3
}
