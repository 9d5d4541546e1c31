//! Request 4, scripts as text: the derivation of a text, its faults, and the file of what has none.

mod faults;
mod grammar;
mod numbering;
pub mod tokens;

use crate::script::LONGEST;

/// "The text is above 65,536 bytes".
pub const LONGEST_TEXT: usize = 65_536;

/// What Read answers: number 0, the file's length and place 0, or a refusal's number and place.
#[derive(Clone, Copy, Debug, PartialEq, Eq)]
pub struct ReadReply {
    pub number: u16,
    pub length: u16,
    pub place: u32,
}

/// The errors of a text, with the numbers of request 4.
#[derive(Clone, Copy)]
enum Error {
    Grammar = 34,
    Declaration,
    Room,
}

/// "Producing the script file and its length"; "the buffer's rest is 0". A refusal leaves the buffer as it was.
pub fn read(text: &[u8], file: &mut [u8]) -> ReadReply {
    match script_file(text, file.len()) {
        Ok(bytes) => {
            file.fill(0);
            file[..bytes.len()].copy_from_slice(&bytes);
            ReadReply { number: 0, length: bytes.len() as u16, place: 0 }
        }
        Err((error, place)) => ReadReply { number: error as u16, length: 0, place: place as u32 },
    }
}

fn script_file(text: &[u8], room: usize) -> Result<Vec<u8>, (Error, usize)> {
    if text.len() > LONGEST_TEXT || room != LONGEST {
        return Err((Error::Room, 0));
    }
    let program = grammar::parse(text).map_err(|place| (Error::Grammar, place))?;
    if let Some(place) = program.declaration_fault() {
        return Err((Error::Declaration, place));
    }
    match program.limit_fault() {
        Some(place) => Err((Error::Room, place)),
        None => Ok(numbering::script(&program).encode()),
    }
}
