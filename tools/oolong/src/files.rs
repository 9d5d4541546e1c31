//! Files that are written.

use crate::fault::Fault;
use std::fs;
use std::io;
use std::path::{Path, PathBuf};

/// Refuses an output that is one of the files that are read: it would be gone.
pub fn keep(output: &Path, inputs: &[(&Path, &str)]) -> Result<(), Fault> {
    let Ok(place) = fs::canonicalize(output) else { return Ok(()) };
    match inputs.iter().find(|(input, _)| fs::canonicalize(input).is_ok_and(|input| input == place)) {
        Some((_, what)) => Err(Fault::file(output, format!("this is the {what}, which would be overwritten"))),
        None => Ok(()),
    }
}

/// Puts bytes into a file. They go into a file beside it first, so that a write that fails leaves what was there.
pub fn write(path: &Path, bytes: &[u8]) -> Result<(), Fault> {
    put(path, bytes).map_err(|error| Fault::file(path, format!("cannot be written: {error}")))
}

fn put(path: &Path, bytes: &[u8]) -> io::Result<()> {
    let place = fs::canonicalize(path).unwrap_or_else(|_| path.to_path_buf());
    // A device, a pipe and a folder are no files that can be exchanged.
    if fs::metadata(&place).is_ok_and(|is| !is.is_file()) {
        return fs::write(&place, bytes);
    }
    let mut name = place.clone().into_os_string();
    name.push(format!(".{}.part", std::process::id()));
    let beside = PathBuf::from(name);
    let written = fs::write(&beside, bytes).and_then(|()| fs::rename(&beside, &place));
    if written.is_err() {
        // What is left of it is of no use; that it cannot be removed either is no news.
        let _ = fs::remove_file(&beside);
    }
    written
}
