//! `oolong check`: the verdict in words.

use crate::args::Args;
use crate::fault::{self, Fault, DONE, REFUSED};
use crate::program::Streams;
use crate::script::{record_at, records, Script, Section, Text};
use crate::source::{Content, Source};
use crate::text::reading;
use engine::CheckReply;
use std::ffi::OsString;

mod declared;
mod excerpt;
mod questions;
mod shape;
mod typed;
mod types;
mod unread;

#[cfg(test)]
mod tests;

/// Bytes of the buffer that Read writes a file into.
const FILE: usize = 13_592;

/// Columns of a line of the verdict below the first, at the most.
const LINE: usize = 400;

/// Why a script is refused. The first line can stand alone.
struct Verdict {
    lines: Vec<String>,
}

/// The script of a source, if it is accepted; else a fault whose line is the first line of the verdict.
pub fn accepted(source: Source) -> Result<Script, Fault> {
    match judged(source) {
        Ok((script, _)) => Ok(script),
        Err(verdict) => {
            let first = verdict.lines.into_iter().next().unwrap_or_default();
            Err(Fault::refused(format!("{first}; 'oolong check' says more")))
        }
    }
}

pub fn command(words: &[OsString], streams: &mut Streams) -> Result<u8, Fault> {
    let args = Args::parse(words, &[])?;
    let source = Source::load(&args.script)?;
    let path = fault::shown(&source.path);
    match judged(source) {
        Ok((script, reply)) => {
            let number = usize::from(reply.start_type);
            let (name, silent) = (script.type_name(number), shape::counted(reply.silent.into(), "silent move"));
            writeln!(
                streams.out,
                "{path}: accepted; the start's type is {name} ({number}); at most {silent} in a row"
            )?;
            Ok(DONE)
        }
        Err(verdict) => {
            for line in &verdict.lines {
                writeln!(streams.out, "{line}")?;
            }
            Ok(REFUSED)
        }
    }
}

/// What the engine says of a source.
fn judged(source: Source) -> Result<(Script, CheckReply), Verdict> {
    let path = fault::shown(&source.path);
    let (file, text) = match source.content {
        Content::File(file) => (file, None),
        Content::Text(bytes) => {
            let mut file = vec![0; FILE];
            let reply = engine::read(&bytes, &mut file);
            if reply.number != 0 {
                return Err(not_read(&path, &bytes, reply.number, reply.place as usize));
            }
            file.truncate(usize::from(reply.length));
            let reading = reading(&bytes);
            (file, Some(Text { bytes, reading }))
        }
    };
    let reply = engine::check(&file);
    if reply.number != 0 {
        return Err(refused(&path, file, text, reply));
    }
    Ok((Script::of(file, text), reply))
}

/// The verdict on a text that Read refuses.
fn not_read(path: &str, text: &[u8], number: u16, place: usize) -> Verdict {
    let what = unread::sentence(text, number, place);
    if unread::is_too_long(text) {
        return Verdict { lines: vec![format!("{path}: refused with {number}: {what}")] };
    }
    let (line, column) = excerpt::position(text, place);
    let end = if place >= text.len() { "the end of the text, " } else { "" };
    let mut lines = vec![format!("{path}: refused with {number} at {end}line {line}, column {column}: {what}")];
    lines.extend(excerpt::marked(text, unread::span(text, number, place)));
    lines.extend(unread::reason(text, number, place).map(indented));
    Verdict { lines }
}

/// The verdict on a file that Check refuses.
fn refused(path: &str, file: Vec<u8>, text: Option<Text>, reply: CheckReply) -> Verdict {
    let (number, place) = (reply.number, usize::from(reply.place));
    let found = if questions::has_record(number) { record_at(&file, place) } else { None };
    let whose = if text.is_some() { "its script" } else { "the" };
    let record = found.map(|(section, at)| format!("{} {at}, byte {place} of {whose} file", section.name()));
    let of_text = text.as_ref().and_then(|text| in_text(text, found?));
    let explained = explained(file, text, number, found);

    let (at, lead, marked) = match (record, of_text) {
        (Some(record), Some((at, marked))) => (at, [Some(record), explained.within], marked),
        (Some(record), None) => (format!(" at {record}"), [None, explained.within], vec![]),
        (None, _) => (String::new(), [None, None], vec![]),
    };
    let lead: Vec<String> = lead.into_iter().flatten().collect();
    let shown =
        explained.shown.map(|shown| if lead.is_empty() { shown } else { format!("{}: {shown}", lead.join(", ")) });
    let mut lines = vec![format!("{path}: refused with {number}{at}: {} No", questions::sentence(number))];
    lines.extend(shown.map(indented));
    lines.extend(marked);
    lines.extend(explained.reason.map(indented));
    Verdict { lines }
}

/// Where a record stands in the text, and its first line there with a mark.
fn in_text(text: &Text, (section, number): (Section, usize)) -> Option<(String, Vec<String>)> {
    let span = text.reading.spans[section as usize].get(number)?.clone();
    let (line, column) = excerpt::position(&text.bytes, span.start);
    Some((format!(" at line {line}, column {column}"), excerpt::marked(&text.bytes, span)))
}

/// A line below the first. Names can be as long as a text, so it may have to be cut.
fn indented(line: String) -> String {
    match line.char_indices().nth(LINE) {
        Some((end, _)) => format!("  {}..", &line[..end]),
        None => format!("  {line}"),
    }
}

/// A record as it is shown, with what a node is within, and why it gets a no.
struct Explained {
    within: Option<String>,
    shown: Option<String>,
    reason: Option<String>,
}

fn explained(file: Vec<u8>, text: Option<Text>, number: u16, record: Option<(Section, usize)>) -> Explained {
    let Some((section, at)) = record else {
        return Explained { within: None, shown: None, reason: shape::whole(&file, number) };
    };
    if number <= questions::LAST_OF_SHAPE {
        let words = records(&file, section).1.into_iter().nth(at).unwrap_or_default();
        let names = declared::Names::of(&file, text.as_ref());
        let reason = shape::of_record(&file, &names, number, (section, at));
        return Explained { within: None, shown: Some(declared::shown(text.as_ref(), section, at, &words)), reason };
    }
    // The shape is sound from here on: records are as SCRIPT.md has them, and parts are there.
    let script = Script::of(file, text);
    let within = (section == Section::Node).then(|| typed::within(&script, at));
    Explained { within, shown: typed::shown(&script, section, at), reason: typed::reason(&script, number, at) }
}
