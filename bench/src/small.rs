//! Small calls: Start; Offer and one-choice Run on the block that Start leaves; and the loop of a converter that asks which positions can move, moves one, and asks again.

use crate::lent::{copy_time, offer_times, played, run_times, start_block, start_times};
use crate::scripts::{deepest, figure_ten, figure_ten_bare, largest};
use crate::table::{heading, row};
use crate::timing::{race, Times};
use second::script::Script;
use second::FLAGS;

pub fn bench() {
    let copy = copy_time();
    let over_copy = |times: Times| format!("{:.2}", times.engine / copy);
    heading(
        "Start, Offer, Run of one choice",
        "bytes",
        &format!("engine's time over a copy of the block, {copy:.0} ns"),
    );
    for (name, script) in cases() {
        let file = script.encode();
        let lent = start_block(&file);
        let (start, offer, run) = (start_times(&file), offer_times(&file, &lent), run_times(&file, &lent, &[0]));
        for (call, times) in [("Start", start), ("Offer", offer), ("Run", run)] {
            row(&format!("{call}, {name}"), file.len(), times, None, &over_copy(times));
        }
    }
    heading("Offer and Run for each move", "moves", "");
    for (name, script) in [("Figure 10", figure_ten()), ("Figure 10, no integers", figure_ten_bare())] {
        let file = script.encode();
        let start = start_block(&file);
        let (choices, end) = played(&file, start.clone());
        row(name, choices.len(), loop_times(&file, &start, &choices, &end), None, "");
    }
}

fn cases() -> Vec<(&'static str, Script)> {
    vec![("Figure 10", figure_ten()), ("largest script", largest(16)), ("511 lets in lets", deepest(1024))]
}

/// Offer and then Run of one choice, for each of these choices; they lead from `start` to `end`.
fn loop_times(file: &[u8], start: &[u8], choices: &[u8], end: &[u8]) -> Times {
    let (mut flags, mut other_flags) = ([0; FLAGS], [0; FLAGS]);
    let mut by_engine = each_move(start, choices, end, |lent, choice| {
        engine::offer(file, lent, &mut flags);
        engine::run(file, lent, choice);
    });
    let mut by_second = each_move(start, choices, end, |lent, choice| {
        second::offer(file, lent, &mut other_flags);
        second::run(file, lent, choice);
    });
    assert!(by_engine() && by_second());
    race(by_engine, by_second)
}

/// Makes each move in a copy of `start`, and answers whether it is then at `end`.
fn each_move<'a>(
    start: &'a [u8],
    choices: &'a [u8],
    end: &'a [u8],
    mut make: impl FnMut(&mut [u8], &[u8]) + 'a,
) -> impl FnMut() -> bool + 'a {
    let mut lent = start.to_vec();
    move || {
        lent.copy_from_slice(start);
        for choice in choices {
            make(&mut lent, std::slice::from_ref(choice));
        }
        lent == end
    }
}
