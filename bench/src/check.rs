//! Check.

use crate::lent::check_times;
use crate::scripts::{
    casts_up, deepest, figure_ten, figure_ten_bare, forks, forks_to_null, forks_with_variables, ladder, largest, spread,
};
use crate::table::{heading, row};
use second::script::Script;

/// How far apart the variables' numbers are, where they are far apart.
const APART: u16 = 64;

pub fn bench() {
    heading("Check", "bytes", "");
    for (name, whole, half) in cases() {
        let file = whole.encode();
        row(name, file.len(), check_times(&file), Some(check_times(&half.encode())), "");
    }
    heading("Check, variables numbered 64 apart", "bytes", "engine's time over that with numbers 1 apart");
    for (name, whole, half) in named_cases() {
        let (file, half) = (spread(whole.clone(), APART).encode(), spread(half, APART).encode());
        let (times, near) = (check_times(&file), check_times(&whole.encode()));
        row(name, file.len(), times, Some(check_times(&half)), &format!("{:.2}", times.engine / near.engine));
    }
}

type Case = (&'static str, Script, Script);

fn cases() -> Vec<Case> {
    vec![
        ("Figure 10", figure_ten(), figure_ten()),
        ("Figure 10, no integers", figure_ten_bare(), figure_ten_bare()),
        ("largest script", largest(16), largest(8)),
        ("63 double joins", ladder(63), ladder(31)),
        ("63 joins, casts up all of them", casts_up(63, false), casts_up(31, false)),
        ("63 joins, and a cast to Unit: 14", casts_up(63, true), casts_up(31, true)),
        ("deepest nesting", deepest(1024), deepest(512)),
        ("341 forks in a chain", forks(341, false), forks(170, false)),
        ("341 forks, left in left", forks(341, true), forks(170, true)),
        ("340 checked forks, null at the end", forks_to_null(340), forks_to_null(170)),
        ("204 forks with variables", forks_with_variables(204), forks_with_variables(102)),
    ]
}

fn named_cases() -> Vec<Case> {
    vec![
        ("Figure 10", figure_ten(), figure_ten()),
        ("Figure 10, no integers", figure_ten_bare(), figure_ten_bare()),
        ("511 lets in lets", deepest(1024), deepest(512)),
        ("204 forks with variables", forks_with_variables(204), forks_with_variables(102)),
    ]
}
