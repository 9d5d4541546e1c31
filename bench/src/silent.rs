//! The silent moves from a node. The call asks the whole script and fills the same table of counts as Check, so it takes as long.

use crate::lent::{check_times, silent_times};
use crate::scripts::{casts, deepest, figure_ten, largest};
use crate::table::{heading, row};
use second::script::Script;

pub fn bench() {
    heading("Silent moves from a node", "bytes", "engine's time over that of its Check");
    for (name, whole, half) in cases() {
        let file = whole.encode();
        let (times, check) = (silent_times(&file), check_times(&file));
        let half = silent_times(&half.encode());
        row(name, file.len(), times, Some(half), &format!("{:.2}", times.engine / check.engine));
    }
}

fn cases() -> Vec<(&'static str, Script, Script)> {
    vec![
        ("Figure 10", figure_ten(), figure_ten()),
        ("largest script", largest(16), largest(8)),
        ("deepest nesting", deepest(1024), deepest(512)),
        ("1,023 casts and a null", casts(1024), casts(512)),
    ]
}
