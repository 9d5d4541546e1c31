//! A second, independent implementation of document 01's four calls, of request 4's reader and of request 6's count,
//! written for differential testing, with generators of scripts, blocks and texts to test with.

pub mod block;
pub mod block_damage;
mod calls;
pub mod cases;
pub mod configure;
pub mod counters;
pub mod damage;
mod derive;
pub mod directed;
pub mod expr;
pub mod generate;
pub mod machine;
pub mod parts;
pub mod print;
pub mod program;
pub mod script;
mod shape;
pub mod silent;
pub mod spelling;
pub mod state;
pub mod sweep;
pub mod text;
pub mod text_damage;
pub mod text_limits;
pub mod texts;
pub mod types;
pub mod typing;
pub mod walk;
pub mod wellformed;

pub use calls::{check, offer, run, silent, start, Answer, Reply, RunReply, SilentReply, FLAGS, MOST_CHOICES};

/// The questions to a call, with the numbers that document 01 and request 5 give to a no.
#[derive(Clone, Copy, Debug, PartialEq, Eq)]
pub enum Question {
    Length = 1,
    Counts,
    Bodies,
    Interfaces,
    Owners,
    Types,
    Nodes,
    Names,
    Joins,
    Classes,
    Bound,
    InferredNull,
    Member,
    Fits,
    Sharing,
    BlockLength = 20,
    BlockObjects,
    BufferLength,
    BlockBindings = 26,
    BlockThreads,
}

/// A no: the question, and the offset of the lowest faulty record (0 where none is named).
#[derive(Clone, Copy, Debug)]
pub struct Refusal {
    pub question: Question,
    pub place: u16,
}
