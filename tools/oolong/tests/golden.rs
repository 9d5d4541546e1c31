//! What the program prints, byte for byte: tests/golden/NAME.txt holds a command, its status and what it says. `OOLONG_GOLDEN=write cargo test golden` writes the files anew; read the difference then.

use oolong::{run, Streams};
use std::ffi::OsString;
use std::fs;
use std::path::{Path, PathBuf};

/// A name and a command. `S/` stands for the samples, `T/` for a folder of the test's own.
const CASES: [(&str, &str); 51] = [
    ("help", "--help"),
    ("help-check", "check --help"),
    ("help-play", "play --help"),
    ("help-explore", "help explore"),
    ("help-page", "page -h"),
    ("no-command", ""),
    ("unknown-command", "sew S/petal.oolong"),
    ("check-accepted", "check S/figure10.oolong"),
    ("check-words", "check S/accept-middle.words"),
    ("check-outline", "check S/refuse-14-outline.oolong"),
    ("check-cast", "check S/refuse-14-cast.oolong"),
    ("check-token", "check S/refuse-34-token.oolong"),
    ("check-end", "check S/refuse-34-end.oolong"),
    ("check-type", "check S/refuse-35-type.oolong"),
    ("check-again", "check S/refuse-35-again.oolong"),
    ("check-integer", "check S/refuse-36-integer.oolong"),
    ("check-sharing", "check S/refuse-15-sharing.words"),
    ("check-length", "check S/refuse-01-length.words"),
    ("check-missing", "check S/none.oolong"),
    ("check-folder", "check S/"),
    ("play-left", "play S/figure10.oolong --left"),
    ("play-right", "play S/figure10.oolong --right"),
    ("play-fair", "play S/petal.oolong --fair"),
    ("play-random", "play S/petal-open.oolong --random 1"),
    ("play-no-moves", "play S/accept-deadlock.oolong --choices 0:5,0,2,9,1:3,2,2"),
    ("play-passed-over", "play S/passed-over.oolong --choices 0:7,1:6"),
    ("play-fails", "play S/accept-null.oolong"),
    ("play-sum-fails", "play S/accept-fail-sum.words"),
    ("play-save", "play S/petal.oolong --choices 0:7,1:5 --save T/job.save"),
    ("play-from", "play S/petal.oolong --from T/job.save"),
    ("play-save-objects", "play S/petal.oolong --from T/objects.save"),
    ("play-save-bindings", "play S/petal.oolong --from T/bindings.save"),
    ("play-save-threads", "play S/petal.oolong --from T/threads.save"),
    ("play-save-cut", "play S/petal.oolong --from T/cut.save"),
    ("play-refused", "play S/refuse-14-cast.oolong"),
    ("play-over-script", "play T/petal.oolong --save T/petal.oolong"),
    ("explore-petal", "explore S/petal.oolong"),
    ("explore-petal-open", "explore S/petal-open.oolong --outcomes"),
    ("explore-petal-open-whole", "explore S/petal-open.oolong --whole"),
    ("explore-philosophers", "explore S/philosophers.oolong"),
    ("explore-philosophers-bound", "explore S/philosophers.oolong --states 50"),
    ("explore-ordered", "explore S/philosophers-ordered.oolong --whole"),
    ("explore-four-forks", "explore S/four-forks.oolong"),
    ("explore-deadlock", "explore S/accept-deadlock.oolong"),
    ("explore-null", "explore S/accept-null.oolong"),
    ("explore-endless", "explore S/accept-endless.words"),
    ("explore-objects", "explore S/accept-257-objects.words"),
    ("explore-from", "explore S/petal.oolong --from T/job.save"),
    ("explore-pages", "explore S/philosophers.oolong --page -o T/pages"),
    ("explore-no-page", "explore S/petal.oolong --page -o T/none"),
    ("page", "page S/petal.oolong --fair -o T/petal.html"),
];

fn golden(name: &str) -> PathBuf {
    Path::new(env!("CARGO_MANIFEST_DIR")).join("tests/golden").join(name).with_extension("txt")
}

/// The command, its status and what it says, with the test's own folder as `T`.
fn said(command: &str, folder: &Path) -> String {
    let samples = Path::new(env!("CARGO_MANIFEST_DIR")).join("../../samples");
    let (samples, folder) = (samples.to_string_lossy(), folder.to_string_lossy());
    let place = |word: &str| match word.split_at_checked(2) {
        Some(("S/", rest)) => format!("{samples}/{rest}"),
        Some(("T/", rest)) => format!("{folder}/{rest}"),
        _ => word.to_string(),
    };
    let words: Vec<OsString> =
        command.split(' ').filter(|word| !word.is_empty()).map(|word| place(word).into()).collect();
    let (mut out, mut err) = (Vec::new(), Vec::new());
    let status = run(&words, &mut Streams { out: &mut out, err: &mut err });
    let [out, err] = [out, err].map(|bytes| String::from_utf8(bytes).expect("UTF-8"));
    let said = format!("$ oolong {command}\n{out}--- standard error\n{err}--- status {status}\n");
    said.replace(&*samples, "S").replace(&*folder, "T")
}

/// Saves with a bad part each, made of the one that a command before has written.
fn damage(folder: &Path) {
    let save = fs::read(folder.join("job.save")).expect("the save of play-save");
    // docs/BLOCK.md: the class of object 0, the type of binding 0, the kind of position 0.
    for (name, at) in [("objects", 8), ("bindings", 13_322), ("threads", 37_896)] {
        let mut damaged = save.clone();
        damaged[at] = 77;
        fs::write(folder.join(name).with_extension("save"), damaged).expect("a damaged save");
    }
    fs::write(folder.join("cut.save"), &save[..60_000]).expect("a cut save");
}

#[test]
fn the_program_says_what_it_said() {
    let folder = std::env::temp_dir().join(format!("oolong-golden-{}", std::process::id()));
    fs::create_dir_all(&folder).expect("a folder");
    let sample = Path::new(env!("CARGO_MANIFEST_DIR")).join("../../samples/petal.oolong");
    fs::copy(sample, folder.join("petal.oolong")).expect("a copy");
    let write = std::env::var("OOLONG_GOLDEN").is_ok_and(|what| what == "write");
    let mut wrong = Vec::new();
    for (name, command) in CASES {
        let said = said(command, &folder);
        if name == "play-save" {
            damage(&folder);
        }
        if write {
            fs::write(golden(name), &said).expect("a golden file");
        } else if fs::read_to_string(golden(name)).ok().as_ref() != Some(&said) {
            wrong.push(format!("{}:\n{said}", golden(name).display()));
        }
    }
    let _ = fs::remove_dir_all(&folder);
    assert!(wrong.is_empty(), "these differ from what is said now:\n{}", wrong.join("\n"));
}

#[test]
fn no_golden_file_is_left_over() {
    let names = fs::read_dir(golden("help").parent().expect("a folder")).expect("the golden files");
    for name in names.map(|entry| entry.expect("an entry").path()) {
        let stem = name.file_stem().expect("a name").to_string_lossy().into_owned();
        assert!(CASES.iter().any(|case| case.0 == stem), "{}", name.display());
    }
}
