//! Processor time of calls that are made by turns.

use std::time::Duration;

/// A call is repeated until its time is well above the clock's own, in microseconds.
const LEAST: f64 = 50.0;

/// A call, and how often it is made each time that it is timed.
pub struct Timed<'a> {
    call: Box<dyn FnMut() + 'a>,
    repeats: u32,
}

impl<'a> Timed<'a> {
    pub fn new(call: impl FnMut() + 'a) -> Timed<'a> {
        let mut timed = Timed {
            call: Box::new(call),
            repeats: 1,
        };
        while timed.time() * f64::from(timed.repeats) < LEAST {
            timed.repeats *= 2;
        }
        timed
    }

    /// Microseconds of one call.
    fn time(&mut self) -> f64 {
        let start = processor_time();
        for _ in 0..self.repeats {
            (self.call)();
        }
        let all = processor_time() - start;
        all.as_nanos() as f64 / 1_000.0 / f64::from(self.repeats)
    }
}

/// The times of some calls in one round, in the order in which they were given.
pub type Round = Vec<f64>;

/// The time of each call in so many rounds. Every second round goes backwards, so that no
/// call always comes behind the same other one.
pub fn rounds(count: usize, mut calls: Vec<Timed>) -> Vec<Round> {
    let round = |number: usize| {
        if number.is_multiple_of(2) {
            return calls.iter_mut().map(Timed::time).collect();
        }
        let mut times: Round = calls.iter_mut().rev().map(Timed::time).collect();
        times.reverse();
        times
    };
    (0..count).map(round).collect()
}

/// Of what is asked of each round: the part of all values that lies below, from 0 to 1.
pub fn percentile(rounds: &[Round], part: f64, asked: impl Fn(&Round) -> f64) -> f64 {
    let mut found: Vec<f64> = rounds.iter().map(asked).collect();
    found.sort_by(f64::total_cmp);
    found[((found.len() - 1) as f64 * part).round() as usize]
}

pub fn median(rounds: &[Round], asked: impl Fn(&Round) -> f64) -> f64 {
    percentile(rounds, 0.5, asked)
}

/// What this thread has had of a processor, so that other work on the machine counts less.
fn processor_time() -> Duration {
    const THREAD: i32 = 3;
    extern "C" {
        fn clock_gettime(clock: i32, time: *mut [i64; 2]) -> i32;
    }
    let mut time = [0; 2];
    // Safety: on x86-64 Linux a time is two such numbers, seconds and nanoseconds.
    let fault = unsafe { clock_gettime(THREAD, &mut time) };
    assert_eq!(fault, 0, "no clock");
    let [seconds, nanoseconds] = time;
    Duration::from_secs(seconds as u64) + Duration::from_nanos(nanoseconds as u64)
}
