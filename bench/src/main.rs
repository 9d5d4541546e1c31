//! The engine's speed against the second implementation's, on the same work in one run, as times and ratios. Each time is the best of several rounds, in which both take turns.
//! Scripts as text are read beside a reader written by hand for speed instead, and `oolong explore` stands beside SPIN.
//! `ratio` is the engine's time over the second implementation's; `growth` is the engine's time over its time at half the size: 2 is in proportion, 4 would be the square.

mod blocks;
mod check;
mod explore;
mod lent;
mod question;
mod read;
mod run;
mod scripts;
mod silent;
mod small;
mod table;
mod timing;

fn main() {
    check::bench();
    silent::bench();
    small::bench();
    run::bench();
    question::bench();
    read::bench();
    explore::bench();
}
