//! Questions 21, 26 and 27, which Offer and Run ask each time: blocks with many frames, bindings and objects. Each is timed in Offer and in a Run of one choice.

use crate::blocks::{bindings, frames, numbers, objects, recursion};
use crate::lent::{made, offer_times, run_on, run_times};
use crate::scripts::{deepest, full_numbers, full_objects, recursive};
use crate::table::{heading, row};
use second::program::Program;
use second::script::Script;
use second::state::State;
use second::wellformed::state_of;
use second::MOST_CHOICES;

type Lent = (Vec<u8>, Vec<u8>);

pub fn bench() {
    heading("Questions 21, 26 and 27", "records", "");
    for joins in [63, 0] {
        let script = recursive(joins, 338);
        let reached = |choices| run_on(&script, choices);
        let name = format!("let frames of one method, {joins} joins");
        both(&name, frames_of(&script, &reached(MOST_CHOICES)), reached(MOST_CHOICES), reached(MOST_CHOICES / 2));
    }
    let script = recursive(63, 338);
    for (name, kinds) in
        [("made: frames all alike", 1), ("made: neighbours differ in a type", 2), ("made: 1,023 kinds of frames", 1023)]
    {
        let block = |count| made(&script, &recursion(count, kinds));
        both(name, 2048, block(2048), block(1024));
    }
    growth("frames at one environment", 2048, &recursive(0, 1), frames);
    growth("bindings in one chain", 2048, &recursive(0, 1), bindings);
    growth("objects with 8 fields", 256, &full_objects(), objects);
    growth("a full block of numbers", 2048, &full_numbers(), numbers);
    let lets = |nodes| run_on(&deepest(nodes), usize::from(nodes) / 2 * 3 - 4);
    both("bindings of lets in lets", 510, lets(1024), lets(512));
}

fn growth(name: &str, size: usize, script: &Script, state: impl Fn(usize) -> State) {
    both(name, size, made(script, &state(size)), made(script, &state(size / 2)));
}

fn both(name: &str, size: usize, (file, lent): Lent, (half_file, half): Lent) {
    let offers = (offer_times(&file, &lent), offer_times(&half_file, &half));
    let runs = (run_times(&file, &lent, &[0]), run_times(&half_file, &half, &[0]));
    row(name, size, offers.0, Some(offers.1), "Offer");
    row("", size, runs.0, Some(runs.1), "Run");
}

/// How many frames a block has.
fn frames_of(script: &Script, (file, lent): &Lent) -> usize {
    assert_eq!(&script.encode(), file);
    let program = Program::read(file).expect("the script is accepted");
    let state = state_of(&program, lent).expect("the block is well formed");
    state.tree.positions().iter().map(|position| position.tree.frames.len()).sum()
}
