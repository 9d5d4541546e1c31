//! `oolong explore` on two models, reduced and whole, and the same models in SPIN, if it is there. The bar: the whole space in at most 10 seconds, with at most 200 bytes kept for a state.

use oolong::check::accepted;
use oolong::course::start_block;
use oolong::explore::search::{search, Found, Options};
use oolong::script::Script;
use oolong::source::Source;
use std::path::Path;
use std::process::Command;
use std::time::Instant;

const MODELS: [&str; 2] = ["philosophers", "four-forks"];
const STATES_MOST: usize = 10_000_000;
const SECONDS_MOST: f64 = 10.0;
const BYTES_MOST: usize = 200;

/// The best of these counts.
const ROUNDS: usize = 5;

fn root() -> &'static Path {
    Path::new(concat!(env!("CARGO_MANIFEST_DIR"), "/.."))
}

fn model(name: &str) -> Script {
    let source = Source::load(&root().join("samples").join(name).with_extension("oolong"));
    source.and_then(accepted).unwrap_or_else(|fault| panic!("{}", fault.line))
}

/// What a search finds, and the seconds that it takes.
fn timed(script: &Script, whole: bool) -> (Found, f64) {
    let options = Options { states: STATES_MOST, whole };
    let from = start_block(script).unwrap_or_else(|fault| panic!("{}", fault.line));
    let once = || {
        let begin = Instant::now();
        let found = search(script, &from, &options, &mut |_| {}).unwrap_or_else(|fault| panic!("{}", fault.line));
        (found, begin.elapsed().as_secs_f64())
    };
    let rounds = (0..ROUNDS).map(|_| once());
    rounds.min_by(|a, b| a.1.total_cmp(&b.1)).expect("there is a round")
}

fn row(name: &str, how: &str, found: &Found, seconds: f64, last: &str) {
    let progress = found.progress;
    let bytes = progress.bytes / progress.states;
    println!("{name:<16} {how:<14} {:>8} {:>8} {seconds:>9.4} {bytes:>6}  {last}", progress.states, progress.moves);
}

/// The bar for a search that is reduced.
fn bar(found: &Found, seconds: f64) -> &'static str {
    let kept = found.progress.bytes / found.progress.states <= BYTES_MOST;
    match found.complete && kept && seconds <= SECONDS_MOST {
        true => "the bar is met: whole, at most 10 s and 200 bytes a state",
        false => "THE BAR IS MISSED: whole, at most 10 s and 200 bytes a state",
    }
}

/// SPIN's searches of its models, one line each as bench/spin/run prints it: `NAME reduced states=N ..`.
fn spin() {
    let said = Command::new(root().join("bench/spin/run")).output();
    let said = said.map(|output| String::from_utf8_lossy(&output.stdout).into_owned()).unwrap_or_default();
    for line in said.lines() {
        let words: Vec<&str> = line.split(' ').collect();
        let value = |name: &str| words.iter().find_map(|word| word.strip_prefix(name)?.strip_prefix('=')).unwrap_or("");
        if words.len() < 3 || value("states").is_empty() {
            println!("{line}");
            continue;
        }
        let seconds: f64 = value("wall").parse().unwrap_or(f64::NAN);
        let (states, moves, bytes) = (value("states"), value("transitions"), value("bytes"));
        println!(
            "{:<16} {:<14} {states:>8} {moves:>8} {seconds:>9.4} {bytes:>6}",
            words[0],
            format!("SPIN, {}", words[1])
        );
    }
}

pub fn bench() {
    println!("\n{:<16} {:<14} {:>8} {:>8} {:>9} {:>6}", "Explore", "", "states", "moves", "seconds", "bytes");
    for name in MODELS {
        let script = model(name);
        let (found, seconds) = timed(&script, false);
        row(name, "reduced", &found, seconds, bar(&found, seconds));
        let (found, seconds) = timed(&script, true);
        row(name, "--whole", &found, seconds, "");
    }
    spin();
}
