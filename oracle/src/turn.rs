//! One case's turn: how often the routine runs and is timed, and when the case must have ended.

use crate::options::Options;
use std::hint::black_box;
use std::time::{Duration, Instant};

pub struct Turn {
    rounds: u64,
    processor: bool,
    shortest: Option<Duration>,
    /// A search of ours stops here, a tenth of the time before the case is lost.
    stop: Instant,
}

impl Turn {
    pub fn new(options: &Options) -> Self {
        let stop = Instant::now() + options.longest() * 9 / 10;
        Self { rounds: options.rounds, processor: options.processor, shortest: None, stop }
    }

    /// The routine's answer; only the routine is timed, not what it is handed.
    pub fn run<I, T>(&mut self, mut prepared: impl FnMut() -> I, mut routine: impl FnMut(I) -> T) -> T {
        for _ in 1..self.rounds {
            let input = black_box(prepared());
            self.timed(|| routine(input));
        }
        let input = black_box(prepared());
        self.timed(|| routine(input))
    }

    fn timed<T>(&mut self, routine: impl FnOnce() -> T) -> T {
        let (wall, processor) = (Instant::now(), processor_time(self.processor));
        let answer = black_box(routine());
        let taken = match processor {
            Some(start) => processor_time(true).unwrap_or(start) - start,
            None => wall.elapsed(),
        };
        self.shortest = Some(self.shortest.map_or(taken, |least| least.min(taken)));
        answer
    }

    pub fn is_ending(&self) -> bool {
        Instant::now() >= self.stop
    }

    /// The answer, with the shortest time behind it where one was asked.
    pub fn told(&self, answer: String) -> String {
        match self.shortest {
            Some(time) if self.rounds > 0 => format!("{answer} | {}", time.as_nanos()),
            _ => answer,
        }
    }
}

/// As the system's C library declares it on machines of 64 bits.
#[repr(C)]
struct Timespec {
    seconds: i64,
    nanoseconds: i64,
}

unsafe extern "C" {
    fn clock_gettime(clock: i32, time: *mut Timespec) -> i32;
}

/// Linux's number for the clock of this thread's time on a processor.
const THREAD_CLOCK: i32 = 3;

/// How long this thread has run, where that is asked.
fn processor_time(asked: bool) -> Option<Duration> {
    let mut time = Timespec { seconds: 0, nanoseconds: 0 };
    // SAFETY: the pointer leads to a record of the layout that the call writes.
    if !asked || unsafe { clock_gettime(THREAD_CLOCK, &mut time) } != 0 {
        return None;
    }
    Some(Duration::new(time.seconds as u64, time.nanoseconds as u32))
}
