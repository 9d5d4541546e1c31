//! What the test files share. Each uses a part of it.
#![allow(dead_code)]

pub mod crowd;
pub mod damage;
pub mod deeds;
pub mod dice;
pub mod duels;
pub mod plain;
pub mod tight;
pub mod tool;
pub mod writer;

use oolong::check::accepted;
use oolong::course::start_block;
use oolong::script::Script;
use oolong::source::{Content, Source};
use std::path::PathBuf;

/// The samples of the repository.
pub fn samples() -> PathBuf {
    PathBuf::from(concat!(env!("CARGO_MANIFEST_DIR"), "/../../samples"))
}

/// The script of a text that must be accepted.
pub fn script(text: &str) -> Script {
    let source = Source { path: PathBuf::from("generated.oolong"), content: Content::Text(text.into()) };
    accepted(source).unwrap_or_else(|fault| panic!("a generated script is refused: {}\n{text}", fault.line))
}

/// The block that Start writes.
pub fn start(script: &Script) -> Vec<u8> {
    start_block(script).unwrap_or_else(|fault| panic!("{}", fault.line))
}

/// What Run stops with on a list, lent in calls of at most 4,096 choices; the block is then where the list ends.
pub fn replay(script: &Script, block: &mut [u8], list: &[u8]) -> u16 {
    let mut stop = run(script, block, &[]).stop;
    for choices in list.chunks(oolong::layout::CHOICES_MOST) {
        stop = run(script, block, choices).stop;
    }
    stop
}

/// Run, which must not refuse.
pub fn run(script: &Script, block: &mut [u8], choices: &[u8]) -> engine::RunReply {
    let reply = engine::run(&script.file, block, choices);
    assert_eq!(reply.number, 0, "Run refuses a block that it should take");
    reply
}

/// Offer's flags.
pub fn flags(script: &Script, block: &[u8]) -> [u8; oolong::layout::FLAGS] {
    let mut flags = [0; oolong::layout::FLAGS];
    let reply = engine::offer(&script.file, block, &mut flags);
    assert_eq!(reply.number, 0, "Offer refuses a block that it should take");
    flags
}

/// The positions that can move.
pub fn able(script: &Script, block: &[u8]) -> Vec<u8> {
    let flags = flags(script, block);
    (0..flags.len() as u8).filter(|&position| flags[usize::from(position)] == 1).collect()
}
