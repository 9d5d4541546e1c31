//! What `--help` and `--version` say.

use crate::fault::{Fault, DONE};
use crate::program::Streams;

const PROGRAM: &str = "\
oolong: checks, plays and explores OOlong scripts

  oolong check SCRIPT      is it accepted, and if not, why and where?
  oolong play SCRIPT       one run, a line for each move
  oolong explore SCRIPT    every run: which ends are possible, and how they are reached
  oolong page SCRIPT       one run as a page for a browser
  oolong COMMAND --help    the options of a command, with examples
  oolong --version

A SCRIPT is a text if its name ends in .oolong, words in decimal if it ends in .words, and else a script file.
Where there is no text, T2 stands for type 2, v3 for variable 3, p for the parameter, f0 for field 0, m1 for method 1.

Threads and joins form a tree. Its positions are numbered from the root, 0, on: a join comes before its left side, and
its left side before its right side. A choice names a position, which then makes one move. A list of choices is typed
as positions from 0 to 255 with commas between them; P:N is position P, N times: 0:16,1:3,2.

A value may stand behind its option or behind a =, as in --states=1000. Behind -- a word is no option.

  oolong check samples/figure10.oolong
  oolong play samples/figure10.oolong --right
  oolong explore samples/philosophers.oolong

Status: 0 accepted, finished, the choices spent, or nothing bad is possible; 1 the engine refuses the script or the
save; 2 a file or the words of the command cannot be read, or the answer not be written; 3 the run failed, is a
deadlock or met a full store, or some run can; 4 the bound on states was reached, and nothing bad found before.
";

const CHECK: &str = "\
oolong check SCRIPT

Says whether the script is accepted, with the type of its result and the most silent moves that a thread makes in a
row; or which question gets the first no, of which record or at which place of the text, and what stands there.

Status: 0 accepted, 1 refused, 2 not readable.

  oolong check samples/figure10.oolong
  oolong check samples/refuse-14-outline.oolong
";

const PLAY: &str = "\
oolong play SCRIPT [--left | --right | --fair | --random SEED | --choices LIST] [--from SAVE] [--save SAVE]

One run, a line for each move: its number, the position in brackets, and what it does. A choice of a position that is
not there or cannot move makes no move; its line has a dash for the number. At the end stands how the run ended, and
unless it finished or failed what each thread does: one that waits for a lock, one that has moved and can go on, and
one that could move and was only passed over, since no choice named it, are told apart. The run ends at the first move
that a full store has no room for. Of a schedule that is no list the list is printed that makes the same run.

  --left          the first position that can move, always; so it is without any of these five
  --right         the last position that can move
  --fair          each in turn
  --random SEED   drawn among those that can move; the same seed, a number below 2^64, draws the same
  --choices LIST  these, whether they can move or not
  --from SAVE     begins with the state in this file, and not at the start. One that is no state of the script is
                  refused, and its first bad part named; a changed number, or a save of nearly the same script, may pass
  --save SAVE     writes the state behind the last choice into this file, 65,536 bytes

Status: 0 finished or the choices spent, 1 script or save refused, 2 not readable, 3 failed, deadlock or a full store.

  oolong play samples/petal.oolong --left
  oolong play samples/petal.oolong --right
  oolong play samples/accept-deadlock.oolong --choices 0:5,1:3
  oolong play samples/petal.oolong --choices 0:8 --save job.save
  oolong play samples/petal.oolong --from job.save
";

const EXPLORE: &str = "\
oolong explore SCRIPT [--from SAVE] [--states N] [--outcomes] [--whole] [--page [-o FOLDER]]

Every schedule: which ends are possible (it finishes, and with which outcomes; it fails; a deadlock; a full store),
and the shortest list found to each. Every list that is printed was played again by the engine's Run, so what is said
of it is so. That there is no other end rests on the search, which is tested; docs/EXPLORE.md says how it works.
An outcome is the value that a run finishes with, and the fields of the objects that it reaches.

  --from SAVE   from the state in this file on
  --states N    keeps at most so many states, 2,000,000 if this is not given; they take some 50 to 200 bytes each, more
                where a script has many objects or frames. A search that stops at a bound makes some plain runs besides
  --outcomes    shows every outcome and every deadlock, and not the first five
  --whole       nothing is reduced: every move in every state, and states are equal where their bytes are
  --page        writes a page of the shortest list to each kind of bad end that was found: failed.html, deadlock.html,
                full-objects.html, full-bindings.html, full-frames.html, full-threads.html
  -o FOLDER     puts the pages there, and not in the current folder; it is made if it is not there

On a long search standard error says now and then how far it is.

Status: 0 nothing bad is possible, 1 script or save refused, 2 not readable, 3 a failure, a deadlock or a full store
is possible, 4 the bound was reached, and nothing bad found before.

  oolong explore samples/petal-open.oolong --outcomes
  oolong explore samples/philosophers.oolong --page -o pages
  oolong explore samples/philosophers-ordered.oolong --whole
";

const PAGE: &str = "\
oolong page SCRIPT [--left | --right | --fair | --random SEED | --choices LIST] [--from SAVE] -o FILE

Writes one run as a page that needs nothing else: open it in a browser. A slider, the arrow keys, Home and End step
through the run; it shows the text, the tree of threads with their frames, who holds which lock and who waits, objects
and their fields, and what changed with the step. #12 behind the page's address shows step 12. The schedules are those
of play. A page has at most 20,000 steps.

Status: 0 written, however the run ended, 1 script or save refused, 2 not readable or not writable.

  oolong page samples/petal.oolong --fair -o petal.html
  oolong page samples/accept-deadlock.oolong --choices 0:5,1:3 -o deadlock.html
";

pub fn show(topic: &str, streams: &mut Streams) -> Result<u8, Fault> {
    let text = match topic {
        "check" => CHECK,
        "play" => PLAY,
        "explore" => EXPLORE,
        "page" => PAGE,
        _ => PROGRAM,
    };
    write!(streams.out, "{text}")?;
    Ok(DONE)
}

/// The library's version stands in its header only.
pub fn version() -> String {
    let header = include_str!("../../../include/oolong.h");
    let part = |name: &str| {
        let define = format!("#define OOLONG_VERSION_{name} ");
        header.lines().find_map(|line| line.strip_prefix(&define)).unwrap_or("?")
    };
    format!("{}.{}.{}", part("MAJOR"), part("MINOR"), part("PATCH"))
}
