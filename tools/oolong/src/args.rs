//! The words of a command: one script, and options.

use crate::fault::Fault;
use std::ffi::{OsStr, OsString};
use std::path::{Path, PathBuf};

/// An option's name, and what its value is called, if it has one.
pub type Named = (&'static str, Option<&'static str>);

#[derive(Debug)]
pub struct Args {
    pub script: PathBuf,
    given: Vec<(&'static str, OsString)>,
}

impl Args {
    /// The words behind a command's name. Each option stands at most once.
    pub fn parse(words: &[OsString], options: &[Named]) -> Result<Args, Fault> {
        let mut scripts: Vec<PathBuf> = Vec::new();
        let mut given: Vec<(&'static str, OsString)> = Vec::new();
        let mut rest = words.iter();
        let mut only_scripts = false;
        while let Some(word) = rest.next() {
            let text = word.to_string_lossy();
            if only_scripts || !text.starts_with('-') || text == "-" {
                scripts.push(word.into());
            } else if text == "--" {
                only_scripts = true;
            } else {
                let option = option(word, &mut rest, options)?;
                if given.iter().any(|(name, _)| *name == option.0) {
                    return Err(Fault::usage(format!("{} stands twice", option.0)));
                }
                given.push(option);
            }
        }
        match (scripts.pop(), scripts.len()) {
            (Some(script), 0) => Ok(Args { script, given }),
            (None, _) => Err(Fault::usage("no script is named")),
            (Some(script), _) => {
                Err(Fault::usage(format!("one script is wanted, and {} is another", script.display())))
            }
        }
    }

    /// The script's name, without its folder.
    pub fn name(&self) -> String {
        self.script.file_name().unwrap_or(self.script.as_os_str()).to_string_lossy().into_owned()
    }

    pub fn has(&self, name: &str) -> bool {
        self.value(name).is_some()
    }

    pub fn value(&self, name: &str) -> Option<&OsStr> {
        self.given.iter().find(|(given, _)| *given == name).map(|(_, value)| value.as_os_str())
    }

    pub fn path(&self, name: &str) -> Option<&Path> {
        self.value(name).map(Path::new)
    }

    /// A value that is a number.
    pub fn number(&self, name: &str) -> Result<Option<u64>, Fault> {
        let Some(value) = self.value(name) else { return Ok(None) };
        let number = value.to_str().and_then(|text| text.replace('_', "").parse().ok());
        let (most, value) = (u64::MAX, value.to_string_lossy());
        let wrong = || Fault::usage(format!("{name} wants a number from 0 to {most}, and '{value}' is none"));
        number.map(Some).ok_or_else(wrong)
    }
}

/// The option that a word names, with its value: behind a `=`, or the next word.
fn option<'a>(
    word: &OsStr,
    rest: &mut impl Iterator<Item = &'a OsString>,
    options: &[Named],
) -> Result<(&'static str, OsString), Fault> {
    let text = word.to_string_lossy();
    let (name, value) = match text.split_once('=') {
        Some((name, value)) => (name.to_string(), Some(OsString::from(value))),
        None => (text.to_string(), None),
    };
    let Some(&(known, what)) = options.iter().find(|(option, _)| *option == name) else {
        return Err(Fault::usage(format!("{name} is no option here")));
    };
    match (what, value) {
        (None, None) => Ok((known, OsString::new())),
        (None, Some(_)) => Err(Fault::usage(format!("{known} takes no value"))),
        (Some(_), Some(value)) => Ok((known, value)),
        (Some(what), None) => match rest.next() {
            Some(value) => Ok((known, value.clone())),
            None => Err(Fault::usage(format!("{known} wants {what} behind it"))),
        },
    }
}
