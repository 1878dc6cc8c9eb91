//! Tails: what most calls of a turn take, and the slowest ones.
use crate::timing::clocked;
use std::thread;
use std::time::Duration;

/// What is told of the calls of a turn: the time that half of them take at most, 99 of a hundred, 999 of a thousand, all.
pub const FIGURES: usize = 4;

/// Shares of the calls of a turn, in thousandths.
const SHARES: [usize; FIGURES] = [500, 990, 999, 1_000];

/// How long each turn waits, until what the one before it has let go is gone and the machine's other work is done.
const REST: Duration = Duration::from_millis(100);

/// What each call of a turn took, in nanoseconds.
pub struct Times(Vec<u64>);

impl Times {
    /// With room for so many calls.
    pub fn of(calls: usize) -> Times {
        Times(Vec::with_capacity(calls))
    }

    /// Times a call.
    pub fn timed<T>(&mut self, call: impl FnOnce() -> T) -> T {
        let (time, answer) = clocked(call);
        self.0.push(time.as_nanos() as u64);
        answer
    }

    /// The figures of the calls.
    pub fn figures(mut self) -> [f64; FIGURES] {
        self.0.sort_unstable();
        SHARES.map(|share| self.0[(self.0.len() * share).div_ceil(1_000) - 1] as f64)
    }
}

/// What the begins and the commits of a turn took.
pub struct Calls {
    pub begins: Times,
    pub commits: Times,
}

impl Calls {
    /// With room for so many transactions.
    pub fn of(transactions: usize) -> Calls {
        Calls { begins: Times::of(transactions), commits: Times::of(transactions) }
    }

    /// The figures of the begins, and then those of the commits.
    pub fn figures(self) -> [f64; 2 * FIGURES] {
        let (begins, commits) = (self.begins.figures(), self.commits.figures());
        std::array::from_fn(|place| if place < FIGURES { begins[place] } else { commits[place - FIGURES] })
    }
}

/// A way to do what a case asks: each turn looks at its answer, and gives several figures.
pub type Turns<'w, const N: usize> = Box<dyn FnMut() -> [f64; N] + 'w>;

/// Of each figure of each way the middle one of so many turns, the ways one after the other in each round.
pub fn middle<const N: usize>(rounds: usize, mut ways: Vec<Turns<'_, N>>) -> Vec<[f64; N]> {
    let mut told: Vec<Vec<[f64; N]>> = ways.iter().map(|_| Vec::with_capacity(rounds)).collect();
    for _ in 0..rounds {
        for (turn, told) in ways.iter_mut().zip(&mut told) {
            thread::sleep(REST);
            told.push(turn());
        }
    }
    told.iter().map(|turns| std::array::from_fn(|figure| middle_of(turns.iter().map(|turn| turn[figure])))).collect()
}

fn middle_of(figures: impl Iterator<Item = f64>) -> f64 {
    let mut figures: Vec<f64> = figures.collect();
    figures.sort_unstable_by(f64::total_cmp);
    figures[figures.len() / 2]
}
