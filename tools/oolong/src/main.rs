//! `oolong`: see `oolong --help`.

use oolong::{run, Streams};
use std::ffi::OsString;
use std::io::{stderr, stdout, BufWriter, Write};
use std::process::ExitCode;
use std::thread;

/// The engine goes as deep as expressions nest, and Read keeps its tables on the stack (oolong.h): more than both, whatever the shell's limit is.
const STACK: usize = 16 << 20;

fn main() -> ExitCode {
    let words: Vec<OsString> = std::env::args_os().skip(1).collect();
    let work =
        move || run(&words, &mut Streams { out: &mut BufWriter::new(stdout().lock()), err: &mut stderr().lock() });
    match thread::Builder::new().stack_size(STACK).spawn(work) {
        Ok(thread) => ExitCode::from(thread.join().unwrap_or(2)),
        Err(error) => {
            // Where standard error is gone too, the status is all that is left to say.
            let _ = writeln!(stderr(), "oolong: there is no room to run in: {error}");
            ExitCode::from(2)
        }
    }
}
