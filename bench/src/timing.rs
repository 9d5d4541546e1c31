//! Both implementations timed on the same work.

use std::hint::black_box;
use std::time::{Duration, Instant};

const ROUNDS: usize = 15;

/// So many rounds there are even where they are long.
const LEAST_ROUNDS: usize = 3;

/// Behind this no more rounds are begun.
const ENOUGH: Duration = Duration::from_millis(400);

/// Each takes about two milliseconds of a round, or one call.
const TURN_NS: f64 = 2e6;

/// Nanoseconds for one call.
#[derive(Clone, Copy)]
pub struct Times {
    pub engine: f64,
    pub second: f64,
}

/// The best times of both, taking turns.
pub fn race<E, S>(mut engine: impl FnMut() -> E, mut second: impl FnMut() -> S) -> Times {
    let begin = Instant::now();
    let (engine_calls, second_calls) = (calls_in_a_turn(&mut engine), calls_in_a_turn(&mut second));
    let mut best = Times { engine: f64::INFINITY, second: f64::INFINITY };
    for round in 0..ROUNDS {
        if round >= LEAST_ROUNDS && begin.elapsed() > ENOUGH {
            break;
        }
        best.engine = best.engine.min(time(engine_calls, &mut engine));
        best.second = best.second.min(time(second_calls, &mut second));
    }
    best
}

fn calls_in_a_turn<T>(call: &mut impl FnMut() -> T) -> u32 {
    (TURN_NS / time(1, call).max(1.0)) as u32 + 1
}

/// The time of one piece of work that both have in common.
pub fn alone<T>(mut work: impl FnMut() -> T) -> f64 {
    (0..ROUNDS).map(|_| time(1000, &mut work)).fold(f64::INFINITY, f64::min)
}

fn time<T>(calls: u32, call: &mut impl FnMut() -> T) -> f64 {
    let begin = Instant::now();
    for _ in 0..calls {
        black_box(call());
    }
    begin.elapsed().as_nanos() as f64 / f64::from(calls)
}
