//! Why a command ends without an answer.

use std::io;
use std::path::Path;

/// The statuses of the program; `oolong --help` lists them.
pub const DONE: u8 = 0;
pub const REFUSED: u8 = 1;
pub const NOT_READABLE: u8 = 2;
pub const BAD_END: u8 = 3;
pub const BOUND: u8 = 4;

/// One line for standard error, and a status.
#[derive(Debug)]
pub struct Fault {
    pub status: u8,
    pub line: String,
}

impl Fault {
    /// The words of the command are not right.
    pub fn usage(line: impl Into<String>) -> Fault {
        Fault { status: NOT_READABLE, line: line.into() }
    }

    /// A file cannot be read or written, or is no script.
    pub fn file(path: &Path, what: impl std::fmt::Display) -> Fault {
        Fault { status: NOT_READABLE, line: format!("{}: {what}", shown(path)) }
    }

    /// The engine refuses what is lent.
    pub fn refused(line: impl Into<String>) -> Fault {
        Fault { status: REFUSED, line: line.into() }
    }
}

/// A file's name on one line, whatever signs it has.
pub fn shown(path: &Path) -> String {
    match path.display().to_string().replace(char::is_control, "?") {
        name if name.is_empty() => "''".into(),
        name => name,
    }
}

/// What cannot be printed: the reader has gone, or the disk is full.
impl From<io::Error> for Fault {
    fn from(error: io::Error) -> Fault {
        Fault { status: NOT_READABLE, line: format!("standard output cannot be written: {error}") }
    }
}
