//! A script as it is given: a text, words or bytes. The name of the file says which.

use crate::fault::Fault;
use crate::layout::BLOCK;
use crate::words;
use std::fs::File;
use std::io::Read;
use std::path::{Path, PathBuf};

/// One byte more than the longest that the engine takes, so that it sees a longer one; of words, which have comments, far more.
const TEXT_READ: u64 = 65_537;
const FILE_READ: u64 = 13_593;
const WORDS_READ: u64 = 4_000_000;

pub enum Content {
    /// `*.oolong`, for Read.
    Text(Vec<u8>),
    /// The bytes of a script file: any other, and what `*.words` stands for.
    File(Vec<u8>),
}

pub struct Source {
    pub path: PathBuf,
    pub content: Content,
}

fn bytes(path: &Path, most: u64) -> Result<Vec<u8>, Fault> {
    let mut bytes = Vec::new();
    let read = File::open(path).and_then(|file| file.take(most).read_to_end(&mut bytes));
    read.map_err(|error| Fault::file(path, format!("cannot be read: {error}")))?;
    Ok(bytes)
}

impl Source {
    pub fn load(path: &Path) -> Result<Source, Fault> {
        let content = match path.extension().and_then(|ending| ending.to_str()) {
            Some("oolong") => Content::Text(bytes(path, TEXT_READ)?),
            Some("words") => {
                let words = bytes(path, WORDS_READ)?;
                Content::File(words::file(&words).map_err(|what| Fault::file(path, what))?)
            }
            _ => Content::File(bytes(path, FILE_READ)?),
        };
        Ok(Source { path: path.to_path_buf(), content })
    }
}

/// The bytes of a save, one more than a block has at the most.
pub fn load_save(path: &Path) -> Result<Vec<u8>, Fault> {
    bytes(path, BLOCK as u64 + 1)
}
