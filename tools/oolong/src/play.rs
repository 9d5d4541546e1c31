//! `oolong play`: one run, a line for each move.

use crate::args::{Args, Named};
use crate::check;
use crate::course::{counted, start_block, Course, FINISHED, SPENT};
use crate::fault::{shown, Fault, BAD_END, DONE};
use crate::files;
use crate::program::Streams;
use crate::schedule::{self, written, Schedule};
use crate::script::Script;
use crate::source::{load_save, Source};
use std::ffi::OsString;
use std::io;
use std::path::Path;

const OWN: [Named; 2] = [("--from", Some("a save")), ("--save", Some("a file"))];

/// The files that a run is read from.
pub fn inputs(args: &Args) -> Vec<(&Path, &'static str)> {
    let save = args.path("--from").map(|path| (path, "save that the run begins with"));
    [(args.script.as_path(), "script")].into_iter().chain(save).collect()
}

/// The words in front of a list of choices that lead to the same run again.
pub fn again(args: &Args) -> String {
    args.path("--from").map_or(String::new(), |path| format!("--from {} ", shown(path)))
}

/// The block that a run begins with: that of a save, or Start's.
pub fn first_block(script: &Script, args: &Args) -> Result<Vec<u8>, Fault> {
    match args.path("--from") {
        Some(path) => load_save(path),
        None => start_block(script),
    }
}

/// The run in that block. A refused save is named.
pub fn begun<'a>(script: &'a Script, args: &Args) -> Result<Course<'a>, Fault> {
    let block = first_block(script, args)?;
    Course::begin(script, block).map_err(|fault| match args.path("--from") {
        Some(path) => Fault::refused(format!("{}: the save is {}", shown(path), fault.line)),
        None => fault,
    })
}

pub fn command(words: &[OsString], streams: &mut Streams) -> Result<u8, Fault> {
    let options: Vec<Named> = schedule::OPTIONS.iter().chain(&OWN).copied().collect();
    let args = Args::parse(words, &options)?;
    let mut schedule = Schedule::of(&args)?;
    if let Some(path) = args.path("--save") {
        // The save that the run began with may be written again.
        files::keep(path, &inputs(&args)[..1])?;
    }
    let script = check::accepted(Source::load(&args.script)?)?;
    let mut course = begun(&script, &args)?;
    let (list, printed) = played(&mut course, &mut schedule, streams)?;
    if let Some(path) = args.path("--save") {
        files::write(path, &course.block)?;
    }
    printed?;
    told(&args, &course, &schedule, &list, streams)?;
    Ok(if course.stop == SPENT || course.stop == FINISHED { DONE } else { BAD_END })
}

/// Makes the moves, with a line for each choice. The run is made to its end though nobody reads the lines, since it may be saved. Answers the choices, and whether all was printed.
fn played(
    course: &mut Course,
    schedule: &mut Schedule,
    streams: &mut Streams,
) -> Result<(Vec<u8>, io::Result<()>), Fault> {
    let (mut list, mut printed) = (Vec::new(), Ok(()));
    while course.stop == SPENT {
        let Some(choice) = schedule.next(&course.flags) else { break };
        let step = course.choose(choice)?;
        list.push(choice);
        let number = if step.moved { course.moves.to_string() } else { "-".into() };
        if printed.is_ok() {
            printed = writeln!(streams.out, "{number:>5}  [{}] {}", step.choice, step.said);
        }
    }
    Ok((list, printed))
}

/// How the run ended, where its threads stand, and, of a schedule that is no list, the list that makes the same run.
fn told(args: &Args, course: &Course, schedule: &Schedule, list: &[u8], streams: &mut Streams) -> Result<(), Fault> {
    writeln!(streams.out, "{}", course.ending())?;
    for line in course.standing() {
        writeln!(streams.out, "  {line}")?;
    }
    match schedule {
        Schedule::List { choices, read } if *read < choices.len() => {
            writeln!(streams.out, "  {} not read", counted(choices.len() - read, "choice"))?;
        }
        Schedule::List { .. } => {}
        _ if list.is_empty() => {}
        _ => writeln!(streams.out, "  the same run: {}--choices {}", again(args), written(list))?,
    }
    Ok(())
}
