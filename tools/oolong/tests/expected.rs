//! Every sample says what it expects of the checker (`# expect:` in words, samples/texts of texts) and how a play with the first position that can move ends (`# plays:`, samples/texts). The program
//! must say the same.

use oolong::{run, Streams};
use std::ffi::OsString;
use std::fs;
use std::path::{Path, PathBuf};

fn samples() -> PathBuf {
    Path::new(env!("CARGO_MANIFEST_DIR")).join("../../samples")
}

/// What the command prints, and its status.
fn said(words: &[&str]) -> (String, u8) {
    let words: Vec<OsString> = words.iter().map(OsString::from).collect();
    let (mut out, mut err) = (Vec::new(), Vec::new());
    let status = run(&words, &mut Streams { out: &mut out, err: &mut err });
    out.extend(err);
    (String::from_utf8_lossy(&out).into_owned(), status)
}

/// A sample's path, what the checker says of it, and how a play of it ends.
fn expected() -> Vec<(PathBuf, String, String)> {
    let texts = fs::read_to_string(samples().join("texts")).expect("samples/texts");
    let lines = texts.lines().filter(|line| !line.starts_with('#'));
    let text = |line: &str| {
        let mut words = line.split('|').map(|word| word.trim().to_string());
        let mut next = || words.next().expect("three columns");
        (samples().join(next()).with_extension("oolong"), next(), next())
    };
    let mut expected: Vec<_> = lines.map(text).collect();
    for entry in fs::read_dir(samples()).expect("samples") {
        let path = entry.expect("an entry").path();
        if path.extension().is_some_and(|ending| ending == "words") {
            let sample = fs::read_to_string(&path).expect("a sample");
            let line = |name: &str| sample.lines().find_map(|line| line.strip_prefix(name)).unwrap_or("").to_string();
            expected.push((path, line("# expect: "), line("# plays: ")));
        }
    }
    expected
}

/// `REFUSE 14 84` in the program's words: of a file its byte, of a text that is not read its line and column.
fn refusal(path: &Path, number: &str, place: usize) -> String {
    if number.parse::<u16>().expect("a number") < 34 {
        return format!("byte {place} of ");
    }
    let text = fs::read(path).expect("a text");
    let before = &text[..place];
    let line = before.iter().filter(|&&byte| byte == b'\n').count() + 1;
    let column = before.iter().rev().take_while(|&&byte| byte != b'\n').count() + 1;
    format!("line {line}, column {column}")
}

#[test]
fn check_says_what_the_samples_expect() {
    let all = expected();
    assert!(all.len() > 50);
    for (path, wanted, _) in all {
        let (said, status) = said(&["check", &path.to_string_lossy()]);
        let wanted: Vec<&str> = wanted.split(' ').collect();
        if let ["ACCEPT", start_type] = wanted[..] {
            assert!(status == 0 && said.contains(&format!("({start_type});")), "{said}");
            continue;
        }
        let (number, place) = (wanted[1], wanted[2].parse().expect("a place"));
        assert!(status == 1 && said.contains(&format!(": refused with {number}")), "{said}");
        assert!(place == 0 || said.contains(&refusal(&path, number, place)), "{said}");
    }
}

/// How a play with this stop ends, in the program's words.
fn ending(stop: &str, moves: &str) -> (String, u8) {
    let moves = if moves == "1" { "1 move of".to_string() } else { format!("{moves} moves of") };
    match stop {
        "1" => ("finished with ".into(), 0),
        "2" => (format!("failed after {moves}"), 3),
        "3" => (format!("deadlock after {moves}"), 3),
        stop => (format!("stopped with {stop} after {moves}"), 3),
    }
}

#[test]
fn play_ends_as_the_samples_expect() {
    let mut played = 0;
    for (path, _, ends) in expected() {
        let words: Vec<&str> = ends.split(' ').collect();
        let [stop, moves, _, ref number @ ..] = words[..] else { continue };
        let (said, status) = said(&["play", &path.to_string_lossy()]);
        let said = said.replace(',', "");
        let (end, wanted) = ending(stop, moves);
        assert!(
            status == wanted && said.contains(&end) && said.contains(&format!("{moves} move")),
            "{}",
            path.display()
        );
        if let [number] = number {
            assert!(said.contains(&format!("finished with {number} after")), "{}", path.display());
        }
        played += 1;
    }
    assert!(played > 20);
}
