//! Readers of scripts as text: a hand-written one, which the library's speed is measured by, and the library's.

pub mod reader;

use second::text::ReadReply;

/// The library's reader, with its reply as the second implementation's.
pub fn library_read(text: &[u8], file: &mut [u8]) -> ReadReply {
    let reply = engine::read(text, file);
    ReadReply { number: reply.number, length: reply.length, place: reply.place }
}
