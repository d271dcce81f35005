//! Times of both sides on the same files, in turns.

use std::time::Duration;

use crate::clock::timed;
use crate::files::Case;
use crate::sides::{Lent, exported, rust};

/// A batch repeats a pass until it takes at least about this long.
const BATCH: Duration = Duration::from_millis(100);
/// Batches of each side; the median counts.
const ROUNDS: usize = 7;
/// A pass that takes longer than this is measured once.
const LONG: Duration = Duration::from_secs(1);

/// Times of one pass over a case's files; none of a side that takes too long.
#[derive(Clone, Copy)]
pub struct Times {
    pub exported: Option<Duration>,
    pub rust: Option<Duration>,
}

/// A side's passes, timed.
struct Side<'a> {
    pass: Box<dyn FnMut() + 'a>,
    repeat: u32,
    times: Vec<Duration>,
}

impl<'a> Side<'a> {
    /// Finds how many passes make a batch.
    fn new(first: Duration, pass: impl FnMut() + 'a) -> Self {
        let mut side = Self {
            pass: Box::new(pass),
            repeat: 1,
            times: vec![],
        };
        if first > LONG {
            side.times = vec![first];
            return side;
        }
        while side.batch() * side.repeat < BATCH {
            side.repeat *= 2;
        }
        side
    }

    /// The time of one pass, from a batch.
    fn batch(&mut self) -> Duration {
        let passes = || (0..self.repeat).for_each(|_| (self.pass)());
        timed(passes).1 / self.repeat
    }

    fn round(&mut self) {
        if self.times.first().is_none_or(|first| *first <= LONG) {
            let time = self.batch();
            self.times.push(time);
        }
    }

    fn median(mut self) -> Duration {
        self.times.sort();
        self.times[self.times.len() / 2]
    }
}

/// The time of zeroing the lent memory, and nothing else.
pub fn zeroing(lent: &mut Lent) -> Duration {
    let mut side = Side::new(Duration::ZERO, || lent.zero_behind(0));
    (0..ROUNDS).for_each(|_| side.round());
    side.median()
}

/// The times, where a first pass took `first`.
pub fn times(case: &Case, lent: &mut Lent, first: Times) -> Times {
    let mut own = Lent::new();
    let mut exported = first
        .exported
        .map(|first| Side::new(first, || exported(case, lent)));
    let mut rust = first
        .rust
        .map(|first| Side::new(first, || rust(case, &mut own)));
    for _ in 0..ROUNDS {
        exported.iter_mut().for_each(Side::round);
        rust.iter_mut().for_each(Side::round);
    }
    Times {
        exported: exported.map(Side::median),
        rust: rust.map(Side::median),
    }
}
