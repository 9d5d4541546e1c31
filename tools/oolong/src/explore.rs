//! `oolong explore`: what all schedules of a script can come to.

mod alone;
mod canonical;
mod coding;
mod effects;
mod exact;
pub mod report;
pub mod search;
mod set;
mod supply;

#[cfg(test)]
mod tests;

use crate::args::{Args, Named};
use crate::check;
use crate::course::{counted, thousands};
use crate::fault::{shown, Fault, BAD_END, BOUND, DONE};
use crate::program::Streams;
use crate::source::Source;
use crate::{page, play};
use report::Report;
use search::{search, Found, Options, Progress};
use std::ffi::OsString;
use std::io::Write;
use std::path::Path;
use std::time::{Duration, Instant};

const OPTIONS: [Named; 6] = [
    ("--from", Some("a save")),
    ("--states", Some("a number")),
    ("--outcomes", None),
    ("--whole", None),
    ("--page", None),
    ("-o", Some("a folder")),
];

/// States that are kept if nobody says how many.
const STATES: u64 = 2_000_000;

/// Strings are numbered in 32 bits.
const STATES_MOST: u64 = u32::MAX as u64 - 1;

/// So often a long search says how far it is.
const OFTEN: Duration = Duration::from_secs(2);

pub fn command(words: &[OsString], streams: &mut Streams) -> Result<u8, Fault> {
    let args = Args::parse(words, &OPTIONS)?;
    let states = args.number("--states")?.unwrap_or(STATES);
    if states == 0 || states > STATES_MOST {
        return Err(Fault::usage(format!("--states wants a number from 1 to {STATES_MOST}")));
    }
    if args.has("-o") && !args.has("--page") {
        return Err(Fault::usage("-o says where --page puts its pages, and there is no --page"));
    }
    let options = Options { states: states as usize, whole: args.has("--whole") };
    let script = check::accepted(Source::load(&args.script)?)?;
    let from = play::begun(&script, &args)?.block;
    let mut clock = Clock { began: Instant::now(), told: Duration::ZERO };
    let found = search(&script, &from, &options, &mut |progress| clock.tell(progress, streams.err))?;
    let ends = report::replayed(&script, &from, &found)?;
    let (whole, all) = (options.whole, args.has("--outcomes"));
    let report =
        Report { script: &script, from: &from, again: play::again(&args), found: &found, ends: &ends, whole, all };
    report.write(&shown(&args.script), streams.out)?;
    if args.has("--page") {
        let folder = args.path("-o").unwrap_or(Path::new("."));
        page::write_ends(&script, &args.name(), &from, &ends, folder, streams)?;
    }
    Ok(status(&found))
}

/// A bad end that was found is one, whether the search came to its end or not.
fn status(found: &Found) -> u8 {
    if found.ends.keys().any(|end| end.is_bad()) {
        BAD_END
    } else if found.complete {
        DONE
    } else {
        BOUND
    }
}

/// Says how far a search is, on standard error, now and then.
struct Clock {
    began: Instant,
    told: Duration,
}

impl Clock {
    fn tell(&mut self, progress: Progress, err: &mut dyn Write) {
        let passed = self.began.elapsed();
        if passed < self.told + OFTEN {
            return;
        }
        self.told = passed;
        let (states, moves) = (counted(progress.states, "state"), counted(progress.moves, "move"));
        let (waiting, seconds) = (thousands(progress.waiting), passed.as_secs());
        // Where standard error is gone, the search goes on.
        let _ = writeln!(err, "oolong: {states}, {moves}, {waiting} states to try, {seconds} s");
    }
}
