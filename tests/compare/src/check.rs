//! Check, and the silent moves from the nodes, on scripts at every limit and on random ones: well typed, damaged, and with one fault of each kind. Each of the answers 0 to 15 must come up 100
//! times, and nodes of each kind and counts of each size must come up often too.

use crate::counts;
use second::directed::limits;
use second::generate::{any, Rng};
use std::time::Instant;

const LEAST: u64 = 100;

pub fn compare(count: u64, seed: u64) -> Result<(), String> {
    let begin = Instant::now();
    let (mut rng, mut tally) = (Rng::new(seed), counts::Tally::default());
    for (script, number) in limits() {
        let reply = agreed(&script)?;
        counts::agree(&script, reply, &mut rng, &mut tally)?;
        if reply.number != number {
            return Err(format!("a script at a limit gets {} instead of {number}: {script:?}", reply.number));
        }
    }
    let mut seen = [0u64; 16];
    for done in 1..=count {
        let script = any(&mut rng);
        let reply = agreed(&script)?;
        counts::agree(&script, reply, &mut rng, &mut tally)?;
        seen[reply.number as usize] += 1;
        crate::progress(begin, done, count);
    }
    println!("{count} scripts with seed {seed}: how often each answer came up");
    for (number, times) in seen.iter().enumerate() {
        println!("{number:2} {times:8}");
    }
    match seen.iter().position(|&times| times < LEAST) {
        Some(number) => Err(format!("answer {number} came up fewer than {LEAST} times")),
        None => tally.is_often(count),
    }
}

/// The reply that both give.
pub fn agreed(script: &[u8]) -> Result<second::Reply, String> {
    let expected = second::check(script);
    let given = engine::check(script);
    let second::Reply { number, place, ty, silent } = expected;
    if given == (engine::CheckReply { number, place, start_type: ty, silent }) {
        return Ok(expected);
    }
    Err(format!("the engine answers {given:?}, the second implementation {expected:?}: {script:?}"))
}
