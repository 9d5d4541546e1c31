//! What a search has found, in words. Each list is played again by Run first, so that what is said of it is so.

use super::search::{End, Found};
use crate::course::{counted, store_name, thousands, Course, DEADLOCK, FAILED, FINISHED};
use crate::fault::{Fault, NOT_READABLE};
use crate::layout::CHOICES_MOST;
use crate::narrate::Told;
use crate::schedule::written;
use crate::script::Script;
use crate::state::{Kind, State, Value};
use std::io::Write;

/// So many ends of a kind are shown where not all are asked for.
const FEW: usize = 5;

/// An end whose list was played again.
pub struct Replayed {
    pub stop: u16,
    pub list: Vec<u8>,
}

impl End {
    pub fn is_bad(&self) -> bool {
        self.stop != FINISHED
    }

    /// The end that a list leads to by Run, which is lent it in as few calls as there can be.
    fn of_list(script: &Script, from: &[u8], list: &[u8]) -> Result<End, Fault> {
        let mut block = from.to_vec();
        let mut stop = engine::run(&script.file, &mut block, &[]).stop;
        for choices in list.chunks(CHOICES_MOST) {
            let reply = engine::run(&script.file, &mut block, choices);
            if reply.number != 0 {
                return Err(Fault::refused(format!("Run refuses the block with {}", reply.number)));
            }
            stop = reply.stop;
        }
        Ok(End::of(script, stop, &block))
    }
}

/// Every end with its list played again from the first block, the shortest first. A list that does not lead where the search says is a mistake of the search, and nothing that it found is said then.
pub fn replayed(script: &Script, from: &[u8], found: &Found) -> Result<Vec<Replayed>, Fault> {
    let mut ends: Vec<Replayed> = Vec::new();
    for (end, list) in &found.ends {
        if End::of_list(script, from, list)? != *end {
            let (list, stop) = (written(list), end.stop);
            let line = format!("the search is wrong: {list} does not lead to its end, {stop}; please report it");
            return Err(Fault { status: NOT_READABLE, line });
        }
        ends.push(Replayed { stop: end.stop, list: list.clone() });
    }
    ends.sort_by_key(|end| (end.stop, end.list.len()));
    Ok(ends)
}

/// Words for an end: the outcome of a run that finishes, what failed first, who waits for what in a deadlock, which move had no room.
fn said(script: &Script, from: &[u8], end: &Replayed) -> Result<Vec<String>, Fault> {
    let mut course = Course::begin(script, from.to_vec())?;
    let (mut failure, mut last) = (None, None);
    for &choice in &end.list {
        let step = course.choose(choice)?;
        if failure.is_none() && course.state.positions.iter().any(|position| position.kind == Kind::Failed) {
            failure = Some(step.said.clone());
        }
        last = Some(step.said);
    }
    Ok(match end.stop {
        FINISHED => outcome(course.told()),
        FAILED => failure.into_iter().collect(),
        DEADLOCK => course.standing(),
        _ => last.into_iter().collect(),
    })
}

/// The value of a finished run, and the objects that it reaches.
fn outcome(told: Told) -> Vec<String> {
    let Kind::WithValue(value) = told.state.positions[0].kind else { return Vec::new() };
    let mut lines = vec![told.value(value)];
    for object in reached(told.state, value) {
        let of = &told.state.objects[object];
        let fields = told.script.fields_of(of.class).iter().zip(&of.fields);
        let fields: Vec<String> = fields
            .map(|(field, value)| format!("{} = {}", told.script.field_name(field.name), told.value(*value)))
            .collect();
        if !fields.is_empty() {
            lines.push(format!("where {} has {}", told.object(object), fields.join(", ")));
        }
    }
    lines
}

fn reached(state: &State, value: Value) -> Vec<usize> {
    let mut reached: Vec<usize> = Vec::new();
    let mut next = vec![value];
    while let Some(value) = next.pop() {
        let Value::Object(object) = value else { continue };
        if !reached.contains(&object) {
            reached.push(object);
            next.extend(state.objects[object].fields.iter().rev());
        }
    }
    reached
}

/// What is printed.
pub struct Report<'a> {
    pub script: &'a Script,
    pub from: &'a [u8],
    /// What stands in front of a list, so that `oolong play` makes the same run.
    pub again: String,
    pub found: &'a Found,
    pub ends: &'a [Replayed],
    pub whole: bool,
    /// All ends are shown, and not the first few of each kind.
    pub all: bool,
}

impl Report<'_> {
    pub fn write(&self, name: &str, out: &mut dyn Write) -> Result<(), Fault> {
        let progress = self.found.progress;
        let (states, moves) = (counted(progress.states, "state"), counted(progress.moves, "move"));
        match self.found.complete {
            true => writeln!(out, "{name}: every schedule was searched")?,
            false => writeln!(
                out,
                "{name}: the search stopped at a bound, with {states} kept; some plain runs were made besides"
            )?,
        }
        self.kind(out, "finishes", "outcome", |stop| stop == FINISHED)?;
        self.kind(out, "fails", "", |stop| stop == FAILED)?;
        self.kind(out, "deadlock", "state", |stop| stop == DEADLOCK)?;
        for stop in (4..=7).filter(|&stop| self.ends.iter().any(|end| end.stop == stop)) {
            self.kind(out, &format!("{} full", store_name(stop)), "", |other| other == stop)?;
        }
        if self.ends.iter().all(|end| end.stop <= DEADLOCK) {
            self.kind(out, "full store", "", |stop| stop > DEADLOCK)?;
        }
        writeln!(out, "{states} and {moves}; {} bytes a state", thousands(progress.bytes / progress.states.max(1)))?;
        Ok(writeln!(out, "{}", self.rests_on())?)
    }

    /// The ends of one kind: how many there are, and the shortest lists to the first few.
    fn kind(&self, out: &mut dyn Write, name: &str, each: &str, is: impl Fn(u16) -> bool) -> Result<(), Fault> {
        let ends: Vec<&Replayed> = self.ends.iter().filter(|end| is(end.stop)).collect();
        let count = match (ends.len(), each, self.found.complete) {
            (0, _, true) => "never".to_string(),
            (0, _, false) => "not found".to_string(),
            (_, "", _) => "possible".to_string(),
            (count, each, _) => format!("possible, {}", counted(count, each)),
        };
        writeln!(out, "  {name:<14}{count}")?;
        let shown = if self.all { ends.len() } else { ends.len().min(FEW) };
        for end in &ends[..shown] {
            for line in said(self.script, self.from, end)? {
                writeln!(out, "    {line}")?;
            }
            match end.list.len() {
                0 => writeln!(out, "      before the first choice")?,
                count => {
                    let (count, list) = (counted(count, "choice"), written(&end.list));
                    writeln!(out, "      after {count}: {}--choices {list}", self.again)?;
                }
            }
        }
        if shown < ends.len() {
            writeln!(out, "    and {}: --outcomes shows all", counted(ends.len() - shown, "other"))?;
        }
        Ok(())
    }

    /// What is proved of the answer, and what is tested.
    fn rests_on(&self) -> String {
        let rest = match (self.found.complete, self.whole) {
            (false, _) if self.ends.is_empty() => return "what was not found may still be possible".into(),
            (false, _) => "what was not found may still be possible",
            (true, true) => "'never' rests on Offer, Run and equal bytes",
            (true, false) => "'never' rests on the search, which is tested",
        };
        format!("each list was played again by Run, which is proved; {rest}")
    }
}
