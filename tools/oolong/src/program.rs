//! The commands of the program.

use crate::fault::{Fault, DONE};
use crate::{check, explore, help, page, play};
use std::ffi::OsString;
use std::io::Write;

/// Where answers go, and where one line goes if there is none.
pub struct Streams<'a> {
    pub out: &'a mut dyn Write,
    pub err: &'a mut dyn Write,
}

/// Does what the words behind the program's name say; the status.
pub fn run(words: &[OsString], streams: &mut Streams) -> u8 {
    let status = command(words, streams).and_then(|status| {
        streams.out.flush()?;
        Ok(status)
    });
    status.unwrap_or_else(|fault| {
        // One line, whatever a file's name is. Where standard error is gone too, the status is all that is left to say.
        let line = fault.line.replace(char::is_control, "?");
        let _ = writeln!(streams.err, "oolong: {line}");
        fault.status
    })
}

fn command(words: &[OsString], streams: &mut Streams) -> Result<u8, Fault> {
    let Some((first, rest)) = words.split_first() else {
        return Err(Fault::usage("a command is wanted: check, play, explore or page; 'oolong --help' says more"));
    };
    let name = first.to_string_lossy();
    let asks = |word: &OsString| word == "--help" || word == "-h";
    if asks(first) || name == "help" {
        let topic = rest.first().map(|word| word.to_string_lossy());
        return help::show(topic.as_deref().unwrap_or(""), streams);
    }
    if name == "--version" {
        writeln!(streams.out, "oolong {}", help::version())?;
        return Ok(DONE);
    }
    if rest.iter().take_while(|word| *word != "--").any(asks) {
        return help::show(&name, streams);
    }
    match name.as_ref() {
        "check" => check::command(rest, streams),
        "play" => play::command(rest, streams),
        "explore" => explore::command(rest, streams),
        "page" => page::command(rest, streams),
        _ => Err(Fault::usage(format!("'{name}' is no command: check, play, explore and page are"))),
    }
}
