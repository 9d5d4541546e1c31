//! Damaged input at every command: never a panic, always a status, and never more than one line on standard error.

mod common;

use common::damage::{damaged, noise};
use common::dice::Dice;
use common::tool::{on_a_large_stack, said, words, Folder, Said};
use common::{able, run, samples, start};
use oolong::check::accepted;
use oolong::script::Script;
use oolong::source::{Content, Source};
use std::ffi::OsString;
use std::fs;
use std::panic::{catch_unwind, AssertUnwindSafe};
use std::path::{Path, PathBuf};

/// Inputs at each command.
const INPUTS: u64 = 20_000;

/// Samples whose runs are long: they are damaged too, but seldom.
const LONG: [&str; 6] = ["accept-256", "accept-257", "accept-1024", "accept-endless", "philosophers", "four-forks"];

/// Items of a choice list: right ones, slips, and what no hand types.
const GOOD_ITEMS: [&str; 9] = ["0", "0:9", "1", "2", "0:20", "1:3", "62", "255", " 1 "];
const BAD_ITEMS: [&str; 10] = ["", ",", "256", "-1", "x", ":", "0:", ":3", "1:2:3", "0:-1"];
const WILD_ITEMS: [&str; 8] =
    ["99999999999999999999", "0:99999999999", "0:18446744073709551615", "\u{ff11}", "+1", "0x1", "1\n2", "\u{1b}"];

/// A script as it is given, and what a run of it needs.
struct Sample {
    /// What its name ends in: that says how it is read.
    ending: &'static str,
    bytes: Vec<u8>,
    /// If it is accepted, and its runs are short.
    script: Option<Script>,
    long: bool,
}

/// Every sample as it stands, and the script files of all that have one.
fn all_samples() -> Vec<Sample> {
    let mut all = Vec::new();
    let mut paths: Vec<PathBuf> =
        fs::read_dir(samples()).expect("samples").map(|entry| entry.expect("an entry").path()).collect();
    paths.sort();
    for path in paths {
        let ending = match path.extension().and_then(|ending| ending.to_str()) {
            Some("oolong") => ".oolong",
            Some("words") => ".words",
            _ => continue,
        };
        let load = || Source::load(&path).unwrap_or_else(|fault| panic!("{}", fault.line));
        let long = LONG.iter().any(|name| path.to_string_lossy().contains(name));
        let script = || accepted(load()).ok().filter(|_| !long);
        let file = match load().content {
            Content::File(file) => file,
            Content::Text(_) => script().map_or(Vec::new(), |script| script.file),
        };
        all.push(Sample { ending, bytes: fs::read(&path).expect("a sample"), script: script(), long });
        all.push(Sample { ending: "", bytes: file, script: script(), long });
    }
    all
}

/// What the inputs of one command are made from.
struct Maker {
    command: &'static str,
    folder: Folder,
    samples: Vec<Sample>,
    dice: Dice,
}

impl Maker {
    fn sample(&mut self, fits: impl Fn(&Sample) -> bool) -> usize {
        loop {
            let drawn = self.dice.below(self.samples.len());
            if fits(&self.samples[drawn]) {
                return drawn;
            }
        }
    }

    /// A good script with short runs.
    fn good(&mut self) -> (PathBuf, usize) {
        let sample = self.sample(|sample| sample.script.is_some());
        let Sample { ending, bytes, .. } = &self.samples[sample];
        (self.folder.put(format!("good{ending}"), bytes), sample)
    }

    /// A damaged script, random bytes, or none.
    fn bad(&mut self) -> PathBuf {
        let (seldom, refused) = (self.dice.percent(1), self.dice.percent(15));
        let one = self.sample(|sample| seldom || !sample.long && sample.script.is_none() == refused);
        let other = self.sample(|_| true);
        let ending = if self.dice.percent(95) { self.samples[one].ending } else { self.samples[other].ending };
        let bytes = match self.dice.percent(96) {
            true => damaged(&mut self.dice, &self.samples[one].bytes, &self.samples[other].bytes),
            false => noise(&mut self.dice),
        };
        self.folder.put(format!("bad{ending}"), &bytes)
    }

    /// A state of the script behind some moves, damaged or that of another script.
    fn save(&mut self, sample: usize) -> PathBuf {
        let other = self.sample(|sample| sample.script.is_some());
        let drawn = if self.dice.percent(85) { sample } else { other };
        let Some(script) = &self.samples[drawn].script else { return self.folder.join("none") };
        let mut block = start(script);
        for _ in 0..self.dice.below(30) {
            let able = able(script, &block);
            if !able.is_empty() {
                run(script, &mut block, &[*self.dice.pick(&able)]);
            }
        }
        let block = match self.dice.weighed(&[55, 20, 15, 10]) {
            0 => self.changed_records(block),
            1 => damaged(&mut self.dice, &block, &[0, 1, 2, 3]),
            2 => block,
            _ => noise(&mut self.dice),
        };
        self.folder.put("bad.save", &block)
    }

    /// A block with bytes changed where records stand, since most others are zeros.
    fn changed_records(&mut self, mut block: Vec<u8>) -> Vec<u8> {
        let places = [0, 8, 60, 13_320, 13_332, 13_344, 37_896, 37_910, 37_924, 38_778, 38_784, 51_066];
        for _ in 0..1 + self.dice.below(3) {
            let at = self.dice.pick(&places) + self.dice.below(14);
            block[at] = *self.dice.pick(&[0, 1, 2, 3, 4, 5, 9, 255]);
        }
        block
    }

    fn list(&mut self) -> OsString {
        let mut list = String::new();
        for _ in 0..self.dice.below(7) {
            let items: &[&str] = [&GOOD_ITEMS[..], &BAD_ITEMS, &WILD_ITEMS][self.dice.weighed(&[85, 10, 5])];
            list += *self.dice.pick(items);
            list += if self.dice.percent(95) { "," } else { ";" };
        }
        list.into()
    }

    /// An option word of some command or of none, with a value or without.
    fn option(&mut self) -> Vec<OsString> {
        let words = [
            "--left",
            "--right",
            "--fair",
            "--random",
            "--choices",
            "--from",
            "--save",
            "--states",
            "--outcomes",
            "--whole",
            "--page",
            "-o",
            "--",
            "-",
            "--help",
            "-h",
            "--left=1",
            "--states=",
            "--states=0",
            "--nonsense",
            "-x",
            "---",
            "",
            "--random=7",
            "--choices=0:4",
        ];
        let values =
            ["1", "0", "-1", "12", "18446744073709551616", "many", "", "_", "0:3,1", "a b", "2_0", "\u{1F9F5}"];
        let mut option = vec![OsString::from(*self.dice.pick(&words))];
        if self.dice.percent(50) {
            option.push((*self.dice.pick(&values)).into());
        }
        option
    }

    /// Where a file is written, or cannot be.
    fn output(&mut self) -> PathBuf {
        match self.dice.weighed(&[60, 10, 10, 10, 10]) {
            0 => self.folder.join("written"),
            1 => self.folder.path().to_path_buf(),
            2 => self.folder.join("no folder").join("written"),
            3 => PathBuf::from("/dev/full"),
            _ => PathBuf::new(),
        }
    }

    /// A script that is none: not there, a folder, a name that is no text.
    fn odd_path(&mut self) -> PathBuf {
        let name = *self.dice.pick(&[
            "not there.oolong",
            "not there",
            "not there.words",
            "not\nthere.oolong",
            "not there\u{7}\u{1b}[0m",
        ]);
        match self.dice.below(4) {
            0 => self.folder.path().to_path_buf(),
            1 => self.folder.join(name),
            2 => self.folder.put(unreadable_name(), b"let x = 1 in x"),
            _ => self.folder.put("empty.oolong", b""),
        }
    }

    /// What the command needs so that its work is short and stays in the folder.
    fn needed(&mut self) -> Vec<OsString> {
        let mut needed = Vec::new();
        if self.command == "explore" {
            needed = words(&format!("--states {}", self.dice.pick(&[1, 10, 40, 150])));
        }
        if self.command == "page" {
            needed.extend(["-o".into(), self.output().into_os_string()]);
        }
        needed
    }

    fn input(&mut self) -> Vec<OsString> {
        let mut made: Vec<OsString> = vec![self.command.into()];
        let drawn = if self.command == "check" {
            self.dice.weighed(&[90, 0, 0, 6, 4])
        } else {
            self.dice.weighed(&[62, 16, 12, 6, 4])
        };
        match drawn {
            0 => made.push(self.bad().into()),
            1 => {
                let (path, sample) = self.good();
                made.extend([path.into(), "--from".into(), self.save(sample).into()]);
            }
            2 => {
                let (path, _) = self.good();
                made.extend([path.into(), "--choices".into(), self.list()]);
            }
            3 => {
                made.push(self.good().0.into());
                for _ in 0..1 + self.dice.below(3) {
                    made.extend(self.option());
                }
            }
            _ => made.push(self.odd_path().into()),
        }
        made.extend(self.needed());
        if self.command == "play" && self.dice.percent(10) {
            made.extend(["--save".into(), self.output().into_os_string()]);
        }
        made
    }
}

/// A file name that is no UTF-8.
fn unreadable_name() -> PathBuf {
    use std::os::unix::ffi::OsStringExt;
    OsString::from_vec(b"odd\xff\xfe.oolong".to_vec()).into()
}

/// What is wrong with an answer, if anything is.
fn wrong(command: &str, said: &Said) -> Option<String> {
    let err = String::from_utf8_lossy(&said.err).into_owned();
    let one_line = err.starts_with("oolong: ") && err.ends_with('\n') && err.matches('\n').count() == 1;
    let quiet = err.is_empty() || command == "explore" && err.lines().all(|line| line.contains(" states to try, "));
    let right = match said.status {
        1 if command == "check" => err.is_empty() && !said.out.is_empty(),
        1 | 2 => one_line,
        0 | 3 | 4 => quiet,
        _ => false,
    };
    (!right).then(|| format!("status {}, standard error:\n{err}", said.status))
}

fn hold(command: &'static str, seed: u64) {
    on_a_large_stack(move || {
        let folder = Folder::new(&format!("damage-{command}"));
        // Some words name a file by chance: it is written here, and not into the sources.
        std::env::set_current_dir(folder.path()).expect("the folder is there");
        let mut maker = Maker { command, folder, samples: all_samples(), dice: Dice::of(seed) };
        let mut statuses = [0; 5];
        for number in 0..INPUTS {
            let words = maker.input();
            let answer = catch_unwind(AssertUnwindSafe(|| said(&words)));
            let Ok(answer) = answer else { panic!("input {number} of {command} (seed {seed}): a panic: {words:?}") };
            if let Some(wrong) = wrong(command, &answer) {
                panic!("input {number} of {command} (seed {seed}): {words:?}: {wrong}");
            }
            statuses[usize::from(answer.status)] += 1;
        }
        println!("{command}: {statuses:?}");
        assert!(statuses[..3].iter().all(|&count| count >= 200), "{statuses:?}");
    });
}

#[test]
fn check() {
    hold("check", 1);
}

#[test]
fn play() {
    hold("play", 2);
}

#[test]
fn explore() {
    hold("explore", 3);
}

#[test]
fn page() {
    hold("page", 4);
}

/// What is said with standard output on a device that is always full, or at a pipe that nobody reads.
fn program(line: &str, output: std::process::Stdio) -> std::process::Output {
    let mut command = std::process::Command::new(env!("CARGO_BIN_EXE_oolong"));
    let child =
        command.args(words(line)).current_dir(samples()).stdout(output).stderr(std::process::Stdio::piped()).spawn();
    child.and_then(|child| child.wait_with_output()).unwrap_or_else(|error| panic!("{line}: {error}"))
}

const LINES: [&str; 4] = [
    "check petal.oolong",
    "play accept-endless.words",
    "explore petal.oolong --outcomes",
    "explore four-forks.oolong --whole --states 500",
];

/// One line on standard error, and status 2.
fn cannot_be_written(line: &str, output: &std::process::Output) {
    let err = String::from_utf8_lossy(&output.stderr);
    assert_eq!(output.status.code(), Some(2), "{line}: {err}");
    assert!(
        err.starts_with("oolong: ") && err.matches('\n').count() == 1 && !err.contains("panicked"),
        "{line}: {err}"
    );
}

#[test]
fn output_to_a_full_device() {
    let Ok(full) = fs::OpenOptions::new().write(true).open(Path::new("/dev/full")) else { return };
    for line in LINES {
        let output = program(line, full.try_clone().expect("a file").into());
        cannot_be_written(line, &output);
    }
}

#[test]
fn output_to_a_closed_pipe() {
    for line in LINES {
        let (reader, writer) = std::io::pipe().expect("a pipe");
        drop(reader);
        cannot_be_written(line, &program(line, writer.into()));
    }
}
