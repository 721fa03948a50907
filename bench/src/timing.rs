//! Times of the contenders over a stream.

use std::hint::black_box;
use std::time::{Duration, Instant};

/// How many short calls are timed as one: to look at the clock takes as long as the shortest, on a small window file or a strip.
pub const BATCH: usize = 10;

/// How often a stream is gone through after the round that warms up.
const ROUNDS: usize = 9;

/// The times of one contender's work: of each item of its stream the least over the rounds, so that what interrupted the
/// process or slowed the machine down for a while is not in it.
pub struct Times {
    least: Vec<Duration>,
}

impl Times {
    fn new(items: usize) -> Times {
        Times { least: vec![Duration::MAX; items] }
    }

    /// The median item in microseconds.
    pub fn median(&mut self) -> f64 {
        let middle = self.least.len() / 2;
        microseconds(*self.least.select_nth_unstable(middle).1)
    }

    /// The slowest item in microseconds.
    pub fn slowest(&self) -> f64 {
        microseconds(*self.least.iter().max().expect("a stream has items"))
    }
}

/// The times of all contenders, each over its stream, a round of one after a round of the other: what slows the machine
/// down for a while slows them all down. The contender at a place does its work on an item.
pub fn times<T, R, const N: usize>(streams: [&[T]; N], work: impl Fn(usize, &T) -> R) -> [Times; N] {
    let mut times = streams.map(|stream| Times::new(stream.len()));
    for round in 0..=ROUNDS {
        for (contender, (stream, times)) in streams.iter().zip(&mut times).enumerate() {
            for (item, least) in stream.iter().zip(&mut times.least) {
                let start = Instant::now();
                black_box(work(contender, black_box(item)));
                let time = start.elapsed();
                if round > 0 {
                    *least = time.min(*least);
                }
            }
        }
    }
    times
}

fn microseconds(time: Duration) -> f64 {
    time.as_secs_f64() * 1e6
}
