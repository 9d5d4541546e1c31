//! `oolong page`: a run as one HTML page that needs nothing else.

mod json;
mod scene;
mod steps;

use crate::args::{Args, Named};
use crate::check;
use crate::course::{store_name, thousands, Course, DEADLOCK, FAILED, SPENT};
use crate::explore::report::Replayed;
use crate::fault::{shown, Fault, DONE};
use crate::files;
use crate::play;
use crate::program::Streams;
use crate::schedule::{self, Schedule};
use crate::script::Script;
use crate::shown::Shown;
use crate::source::Source;
use std::collections::BTreeSet;
use std::ffi::OsString;
use std::fs;
use std::path::Path;
use steps::Steps;

/// The page without its title and its data, which stand where `@@TITLE@@` and `@@DATA@@` do.
const TEMPLATE: &str = include_str!("page/page.html");

/// So many steps a page has at the most: a longer run is cut here, and the page says so.
const STEPS_MOST: usize = 20_000;

/// The last of the stops for a full store.
const FULL_LAST: u16 = 7;

const OWN: [Named; 2] = [("-o", Some("a file")), ("--from", Some("a save"))];

/// A page in the making. Points are added one by one, and only what each changes is kept, so that a long run needs no room for all its states.
pub struct Page<'a> {
    script: &'a Script,
    title: String,
    steps: Steps,
    /// The variables that bindings name, for the table of their names.
    variables: BTreeSet<usize>,
}

impl<'a> Page<'a> {
    pub fn begin(script: &'a Script, title: &str) -> Page<'a> {
        Page { script, title: title.to_string(), steps: Steps::default(), variables: BTreeSet::new() }
    }

    pub fn add(&mut self, point: Shown) {
        self.variables.extend(point.state.bindings.iter().map(|binding| binding.variable));
        self.steps.add(point);
    }

    /// The whole page as text; `ending` says how the run ended.
    pub fn end(self, ending: &str) -> String {
        let variables = scene::variables(self.script, &self.variables);
        let data = json::object([
            ("title", json::string(&self.title)),
            ("ending", json::string(ending)),
            ("text", scene::text(self.script)),
            ("nodes", scene::nodes(self.script)),
            ("types", scene::types(self.script)),
            ("classes", scene::classes(self.script)),
            ("methods", scene::methods(self.script)),
            ("variables", variables),
            ("words", self.steps.words()),
            ("steps", self.steps.json()),
        ]);
        filled(&escaped(&self.title), &data)
    }
}

/// The template with its places filled. Only the template is searched for them, so that a title that looks like a place stays a title.
fn filled(title: &str, data: &str) -> String {
    let piece = |(i, piece): (usize, &str)| match (i % 2, piece) {
        (0, piece) => piece.to_string(),
        (_, "TITLE") => title.to_string(),
        _ => data.to_string(),
    };
    TEMPLATE.split("@@").enumerate().map(piece).collect()
}

/// A text as HTML.
fn escaped(text: &str) -> String {
    let mut made = String::new();
    for sign in text.chars() {
        match sign {
            '&' => made.push_str("&amp;"),
            '<' => made.push_str("&lt;"),
            '>' => made.push_str("&gt;"),
            '"' => made.push_str("&quot;"),
            '\'' => made.push_str("&#39;"),
            _ => made.push(sign),
        }
    }
    made
}

pub fn command(words: &[OsString], streams: &mut Streams) -> Result<u8, Fault> {
    let options: Vec<Named> = schedule::OPTIONS.iter().chain(&OWN).copied().collect();
    let args = Args::parse(words, &options)?;
    let Some(path) = args.path("-o") else {
        return Err(Fault::usage("-o is wanted, with the file that the page goes to"));
    };
    let mut schedule = Schedule::of(&args)?;
    files::keep(path, &play::inputs(&args))?;
    let script = check::accepted(Source::load(&args.script)?)?;
    let mut course = play::begun(&script, &args)?;
    let (page, ending) = of_run(&script, &args.name(), &mut course, &mut schedule)?;
    files::write(path, page.as_bytes())?;
    writeln!(streams.out, "{}: {ending}", shown(path))?;
    Ok(DONE)
}

/// The page of a run, and how it ended.
fn of_run(
    script: &Script,
    title: &str,
    course: &mut Course,
    schedule: &mut Schedule,
) -> Result<(String, String), Fault> {
    let mut page = Page::begin(script, title);
    page.add(course.shown(None, "the run begins".into()));
    while course.stop == SPENT {
        let Some(choice) = schedule.next(&course.flags) else { break };
        if course.read == STEPS_MOST {
            let ending = format!("it goes on, and a page has {} steps at the most", thousands(STEPS_MOST));
            return Ok((page.end(&ending), ending));
        }
        let step = course.choose(choice)?;
        page.add(course.shown(Some(choice), step.said));
    }
    let ending = course.ending();
    Ok((page.end(&ending), ending))
}

/// A page for the shortest list to each kind of bad end of a search: failed.html, deadlock.html, full-bindings.html and so on.
pub fn write_ends(
    script: &Script,
    title: &str,
    from: &[u8],
    ends: &[Replayed],
    folder: &Path,
    streams: &mut Streams,
) -> Result<(), Fault> {
    if ends.iter().all(|end| end.stop < FAILED) {
        writeln!(streams.out, "  page          none, since no bad end was found")?;
        return Ok(());
    }
    fs::create_dir_all(folder).map_err(|error| Fault::file(folder, format!("cannot be made: {error}")))?;
    for stop in FAILED..=FULL_LAST {
        let Some(end) = ends.iter().filter(|end| end.stop == stop).min_by_key(|end| end.list.len()) else { continue };
        let name = match stop {
            FAILED => "failed".to_string(),
            DEADLOCK => "deadlock".to_string(),
            full => format!("full-{}", store_name(full)),
        };
        let mut course = Course::begin(script, from.to_vec())?;
        let mut schedule = Schedule::List { choices: end.list.clone(), read: 0 };
        let path = folder.join(format!("{name}.html"));
        let page = of_run(script, &format!("{title}: {name}"), &mut course, &mut schedule)?.0;
        files::write(&path, page.as_bytes())?;
        writeln!(streams.out, "  page          {}", shown(&path))?;
    }
    Ok(())
}

#[cfg(test)]
mod tests;
