//! The engine against the second implementation, on N random cases; it fails at the first difference, and if an answer came up too rarely.
//! `compare check N SEED`: Check and the count of silent moves, on scripts. `compare calls N SEED`: the calls that a block is lent to. `compare types`: both, on every type number and on words that
//! are none. `compare words`: Offer and Run, on two small blocks with each word changed. `compare texts N SEED`: Read, on texts. `compare rows N SEED`: the engine's count of silent moves against
//! its own Run, on blocks.

mod calls;
mod check;
mod counts;
mod lent;
mod rows;
mod texts;
mod types;
mod words;

use std::process::ExitCode;
use std::time::Instant;

const PROGRESS_EVERY: u64 = 100_000;

fn main() -> ExitCode {
    let words: Vec<String> = std::env::args().skip(1).collect();
    let numbers: Vec<u64> = words.iter().skip(1).filter_map(|word| word.parse().ok()).collect();
    let outcome = match (words.first().map(String::as_str), &numbers[..]) {
        (Some("check"), &[count, seed]) => check::compare(count, seed),
        (Some("calls"), &[count, seed]) => calls::compare(count, seed),
        (Some("rows"), &[count, seed]) => rows::compare(count, seed),
        (Some("texts"), &[count, seed]) => texts::compare(count, seed),
        (Some("types"), []) => types::compare(),
        (Some("words"), []) => words::compare(),
        _ => {
            eprintln!("usage: compare check|calls|rows|texts N SEED, or compare types|words");
            return ExitCode::from(2);
        }
    };
    match outcome {
        Ok(()) => ExitCode::SUCCESS,
        Err(message) => {
            println!("{message}");
            ExitCode::FAILURE
        }
    }
}

/// Says now and then how far it is, on standard error.
fn progress(begin: Instant, done: u64, count: u64) {
    if done % PROGRESS_EVERY == 0 {
        eprintln!("{done} of {count} cases, {:.0} s", begin.elapsed().as_secs_f64());
    }
}
