//! Commands of the tool, run in this process, and folders for what they read and write.

use oolong::{run, Streams};
use std::ffi::OsString;
use std::fs;
use std::path::{Path, PathBuf};
use std::thread;

pub struct Said {
    pub status: u8,
    pub out: Vec<u8>,
    pub err: Vec<u8>,
}

impl Said {
    pub fn text(&self) -> String {
        String::from_utf8_lossy(&self.out).into_owned()
    }
}

pub fn said(words: &[OsString]) -> Said {
    let (mut out, mut err) = (Vec::new(), Vec::new());
    let status = run(words, &mut Streams { out: &mut out, err: &mut err });
    Said { status, out, err }
}

/// The words of a line, between blanks.
pub fn words(line: &str) -> Vec<OsString> {
    line.split_whitespace().map(OsString::from).collect()
}

/// A folder that is gone with this value. It is in memory where there is such a place, since thousands of files go through it.
pub struct Folder(PathBuf);

impl Folder {
    pub fn new(name: &str) -> Folder {
        let memory = Path::new("/dev/shm");
        let place = if fs::metadata(memory).is_ok() { memory.to_path_buf() } else { std::env::temp_dir() };
        let folder = place.join(format!("oolong-{name}-{}", std::process::id()));
        fs::create_dir_all(&folder).unwrap_or_else(|error| panic!("{}: {error}", folder.display()));
        Folder(folder)
    }

    pub fn path(&self) -> &Path {
        &self.0
    }

    pub fn join(&self, name: impl AsRef<Path>) -> PathBuf {
        self.0.join(name)
    }

    /// A file in the folder.
    pub fn put(&self, name: impl AsRef<Path>, bytes: &[u8]) -> PathBuf {
        let path = self.join(name);
        fs::write(&path, bytes).unwrap_or_else(|error| panic!("{}: {error}", path.display()));
        path
    }
}

impl Drop for Folder {
    fn drop(&mut self) {
        let _ = fs::remove_dir_all(&self.0);
    }
}

/// Does the work on a stack as large as the program's own.
pub fn on_a_large_stack(work: impl FnOnce() + Send + 'static) {
    let thread = thread::Builder::new().stack_size(16 << 20).spawn(work).expect("a thread");
    if let Err(panic) = thread.join() {
        std::panic::resume_unwind(panic);
    }
}
