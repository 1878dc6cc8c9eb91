//! Threads that do the same at once.
use std::sync::Barrier;
use std::thread;
use std::time::{Duration, Instant};

/// How many threads there are in turn.
pub const THREADS: [usize; 3] = [1, 2, 4];

/// What threads did at once.
pub struct AtOnce {
    /// From the first one's start to the last one's end.
    pub whole: Duration,
    /// What a thread took, on the average.
    pub each: Duration,
    /// The sum of their answers.
    pub answer: i64,
}

/// Calls in so many threads at once, each with its number.
pub fn at_once(threads: usize, call: impl Fn(usize) -> i64 + Sync) -> AtOnce {
    let barrier = Barrier::new(threads);
    let (barrier, call) = (&barrier, &call);
    let turn = |thread| {
        barrier.wait();
        let start = Instant::now();
        let answer = call(thread);
        (start, Instant::now(), answer)
    };
    let turns: Vec<(Instant, Instant, i64)> = thread::scope(|scope| {
        let started: Vec<_> = (0..threads).map(|thread| scope.spawn(move || turn(thread))).collect();
        started.into_iter().map(|thread| thread.join().expect("no thread panics")).collect()
    });
    let start = turns.iter().map(|(start, ..)| *start).min().expect("a thread");
    let end = turns.iter().map(|(_, end, _)| *end).max().expect("a thread");
    let sum: Duration = turns.iter().map(|(start, end, _)| *end - *start).sum();
    AtOnce { whole: end - start, each: sum / threads as u32, answer: turns.iter().map(|(.., answer)| answer).sum() }
}
