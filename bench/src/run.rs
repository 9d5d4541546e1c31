//! Run: a whole call, which asks every question about the script and the block before the first choice, and what is left for a move when the same call without choices is taken off.

use crate::blocks::beside_frames;
use crate::lent::{made, played, run_times, start_block};
use crate::scripts::{beside, counting, deepest, endless, figure_ten, figure_ten_bare, forks, lets_of_nulls};
use crate::table::{heading, row};
use crate::timing::Times;
use second::script::Script;

/// The half of the script, where a smaller one is to be compared.
type Case = (&'static str, Script, Option<Script>);

pub fn bench() {
    heading("Run", "moves", "moves in a second: engine, second");
    for (name, script, half) in cases() {
        let file = script.encode();
        let start = start_block(&file);
        let (choices, end) = played(&file, start.clone());
        let half = half.map(|half| whole_run(&half.encode()));
        timed(name, &file, &start, &choices, half);
        row("  no choice, at its end", 0, run_times(&file, &end, &[]), None, "");
    }
    let halves = [(0, None), (750, None), (1500, Some(750))];
    for (frames, half) in halves {
        let run = |frames| made(&beside(), &beside_frames(frames));
        let (file, from) = run(frames);
        let choices = [1; 3000];
        let half = half.map(|frames| run_times(&file, &run(frames).1, &choices));
        timed(&format!("{frames} frames of another thread"), &file, &from, &choices, half);
    }
}

fn whole_run(file: &[u8]) -> Times {
    let start = start_block(file);
    let (choices, _) = played(file, start.clone());
    run_times(file, &start, &choices)
}

fn timed(name: &str, file: &[u8], from: &[u8], choices: &[u8], half: Option<Times>) {
    let (idle, whole) = (run_times(file, from, &[]), run_times(file, from, choices));
    let speed = |whole: f64, idle: f64| 1e9 * choices.len() as f64 / (whole - idle).max(1.0);
    let speeds = format!("{:.0}, {:.0}", speed(whole.engine, idle.engine), speed(whole.second, idle.second));
    row(name, choices.len(), whole, half, &speeds);
}

fn cases() -> Vec<Case> {
    vec![
        ("Figure 10", figure_ten(), None),
        ("Figure 10, no integers", figure_ten_bare(), None),
        ("a method that calls itself", endless(), None),
        ("a method that counts", counting(), None),
        ("511 lets in lets", deepest(1024), Some(deepest(512))),
        ("340 lets of nulls in lets", lets_of_nulls(340), Some(lets_of_nulls(170))),
        ("31 forks, left in left", forks(31, true), Some(forks(15, true))),
        ("80 forks in a chain", forks(80, false), Some(forks(40, false))),
    ]
}
