//! Every list that `explore` prints leads where it says: it is read back out of what was printed, and played by `play` and by the engine.

mod common;

use common::dice::Dice;
use common::tool::{said, words, Folder};
use common::writer::Shape;
use common::{crowd, deeds, replay, samples, start};
use oolong::check::accepted;
use oolong::source::Source;
use std::ffi::OsString;
use std::path::Path;

/// What a line of the report begins, and what Run stops with then.
const KINDS: [(&str, u16); 7] = [
    ("  finishes ", 1),
    ("  fails ", 2),
    ("  deadlock ", 3),
    ("  objects full ", 4),
    ("  bindings full ", 5),
    ("  frames full ", 6),
    ("  threads full ", 7),
];

/// The lists of a report, each with the end that it stands under.
fn printed(report: &str) -> Vec<(u16, String)> {
    let mut stop = 0;
    let mut lists = Vec::new();
    for line in report.lines() {
        stop = KINDS.iter().find(|(name, _)| line.starts_with(name)).map_or(stop, |kind| kind.1);
        if let Some((_, list)) = line.split_once("--choices ") {
            lists.push((stop, list.trim().to_string()));
        }
    }
    lists
}

/// A list as docs say that it is typed.
fn choices(list: &str) -> Vec<u8> {
    let mut choices = Vec::new();
    for item in list.split(',') {
        let (position, times) = item.split_once(':').unwrap_or((item, "1"));
        let (position, times) = (position.parse().expect("a position"), times.parse().expect("a number"));
        choices.extend(std::iter::repeat_n::<u8>(position, times));
    }
    choices
}

/// How a play with this stop ends, and with which status.
fn ending(stop: u16) -> (String, u8) {
    match stop {
        1 => ("finished ".into(), 0),
        2 => ("failed after ".into(), 3),
        3 => ("deadlock after ".into(), 3),
        stop => (format!("stopped with {stop} after "), 3),
    }
}

/// Explores a script and plays all lists; what they stop with.
fn judge(path: &Path, options: &str) -> Vec<u16> {
    let mut command: Vec<OsString> = vec!["explore".into(), path.into()];
    command.extend(words(options));
    let report = said(&command);
    assert!(report.err.is_empty(), "{}", String::from_utf8_lossy(&report.err));
    let lists = printed(&report.text());
    let source = Source::load(path).unwrap_or_else(|fault| panic!("{}", fault.line));
    let script = accepted(source).unwrap_or_else(|fault| panic!("{}", fault.line));
    let bad = lists.iter().any(|(stop, _)| *stop != 1);
    assert_eq!(report.status == 3, bad, "{}", report.text());
    for (stop, list) in &lists {
        let name = format!("{} --choices {list}", path.display());
        assert_eq!(replay(&script, &mut start(&script), &choices(list)), *stop, "{name}");
        let played = said(&["play".into(), path.into(), "--choices".into(), list.into()]);
        let (words, status) = ending(*stop);
        assert_eq!(played.status, status, "{name}");
        assert!(played.text().lines().any(|line| line.starts_with(&words)), "{name}: {}", played.text());
        // At a full store the last choice makes no move; all others must.
        let idle = played.text().lines().filter(|line| line.starts_with("    -  [")).count();
        assert_eq!(idle, usize::from(*stop >= 4), "{name}");
    }
    lists.into_iter().map(|(stop, _)| stop).collect()
}

#[test]
fn lists_of_the_samples() {
    let mut seen = Vec::new();
    for name in [
        "petal",
        "petal-open",
        "philosophers",
        "philosophers-ordered",
        "four-forks",
        "passed-over",
        "figure10",
        "accept-deadlock",
        "accept-null",
    ] {
        for options in ["", "--whole --outcomes", "--states 300"] {
            seen.extend(judge(&samples().join(name).with_extension("oolong"), options));
        }
    }
    for name in ["accept-endless", "accept-257-objects", "accept-fail-sum", "accept-unlocked"] {
        seen.extend(judge(&samples().join(name).with_extension("words"), ""));
    }
    assert!((1..=5).all(|stop| seen.contains(&stop)), "{seen:?}");
}

#[test]
fn lists_of_random_scripts() {
    let folder = Folder::new("lists");
    let mut dice = Dice::of(5);
    let mut seen = Vec::new();
    for seed in 80_000..80_230 {
        let text = if seed % 2 == 0 { deeds::text(seed) } else { crowd::text(seed, Shape::Open) };
        let path = folder.put("script.oolong", text.as_bytes());
        let options = *dice.pick(&["--outcomes --states 1500", "--outcomes --states 100", "--states 1_500"]);
        seen.extend(judge(&path, options));
    }
    assert!(
        seen.len() >= 200 && (1..=3).all(|stop| seen.iter().filter(|&&other| other == stop).count() >= 5),
        "{seen:?}"
    );
}
