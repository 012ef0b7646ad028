//! Times several contenders side by side.

mod clock;

use std::hint::black_box;
use std::time::{Duration, Instant};

use clock::processor_time;

pub type Contender<'a, Answer> = &'a dyn Fn() -> Answer;

/// How long one contender's turn should take: short, so that a disturbance
/// spoils few turns.
const TURN: Duration = Duration::from_micros(100);

/// The time of one call in each contender's shortest turn, in seconds, when
/// all rounds together take about as long as given. Each has one turn in a
/// round, and every round starts with another one, so that none has a better
/// place.
pub fn minimum_times<Answer, const COUNT: usize>(
    all_rounds: Duration,
    contenders: &[Contender<'_, Answer>; COUNT],
) -> [f64; COUNT] {
    let calls = calls_in_a_turn(contenders[0]);
    let mut minimum = [f64::INFINITY; COUNT];
    let start = Instant::now();
    let mut round = 0;
    while start.elapsed() < all_rounds {
        for turn in 0..COUNT {
            let index = (round + turn) % COUNT;
            let seconds = time(contenders[index], calls).as_secs_f64();
            minimum[index] = minimum[index].min(seconds);
        }
        round += 1;
    }
    minimum.map(|seconds| seconds / f64::from(calls))
}

fn calls_in_a_turn<Answer>(contender: Contender<'_, Answer>) -> u32 {
    let mut calls = 1;
    while time(contender, calls) < TURN {
        calls *= 2;
    }
    calls
}

fn time<Answer>(contender: Contender<'_, Answer>, calls: u32) -> Duration {
    let start = processor_time();
    for _ in 0..calls {
        black_box(contender());
    }
    processor_time() - start
}
