//! Times: the least of several turns, each way to do a thing taken in turn, and each answer looked at.
use std::time::{Duration, Instant};

/// What one turn took, and what it answered.
pub struct Turn {
    pub time: Duration,
    pub answer: i64,
}

/// Times a call whose answer is the turn's.
pub fn timed(call: impl FnOnce() -> i64) -> Turn {
    let (time, answer) = clocked(call);
    Turn { time, answer }
}

/// Times a call.
pub fn clocked<T>(call: impl FnOnce() -> T) -> (Duration, T) {
    let start = Instant::now();
    let answer = call();
    (start.elapsed(), answer)
}

/// A way to do what a case asks: a turn makes so many calls, and has to give the answer that is due.
pub struct Way<'w> {
    calls: usize,
    due: i64,
    turn: Box<dyn FnMut() -> Turn + 'w>,
}

/// A way whose turns time themselves, so that what they set up isn't counted.
pub fn way<'w>(calls: usize, due: i64, turn: impl FnMut() -> Turn + 'w) -> Way<'w> {
    Way { calls, due, turn: Box::new(turn) }
}

/// A way whose turns are timed whole.
pub fn whole<'w>(calls: usize, due: i64, mut turn: impl FnMut() -> i64 + 'w) -> Way<'w> {
    way(calls, due, move || timed(&mut turn))
}

/// The nanoseconds of a call by each way: the least of so many turns, the ways one after the other in each round.
/// Ends the program where an answer isn't the one that is due.
pub fn least(case: &str, rounds: usize, mut ways: Vec<Way<'_>>) -> Vec<f64> {
    let mut times = vec![f64::INFINITY; ways.len()];
    for _ in 0..rounds {
        for (place, way) in ways.iter_mut().enumerate() {
            let turn = (way.turn)();
            assert_eq!(way.due, turn.answer, "{case}: way {place} gave another answer than is due");
            times[place] = times[place].min(turn.time.as_nanos() as f64 / way.calls as f64);
        }
    }
    times
}
