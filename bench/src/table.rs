//! The tables that are printed.

use crate::timing::Times;

/// The heading of a table: what is timed, what its size is, and what the last column is, if there is one.
pub fn heading(what: &str, size: &str, last: &str) {
    heading_beside(what, "second ns", size, last);
}

/// The same where the engine is timed beside something else than the second implementation.
pub fn heading_beside(what: &str, beside: &str, size: &str, last: &str) {
    println!("\n{what:<36} {size:>8} {:>12} {beside:>12} {:>7} {:>8}  {last}", "engine ns", "ratio", "growth");
}

/// A row: `half` are the times at half the size, where there are such.
pub fn row(name: &str, size: usize, times: Times, half: Option<Times>, last: &str) {
    let growth = half.map_or(String::new(), |half| format!("{:.2}", times.engine / half.engine));
    let ratio = times.engine / times.second;
    println!("{name:<36} {size:>8} {:>12.0} {:>12.0} {ratio:>7.2} {growth:>8}  {last}", times.engine, times.second);
}
