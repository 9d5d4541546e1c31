//! The program `oolong`: what a script is, what a run of it does, and what all its runs can come to. The engine judges, moves and refuses, through liboolong.a; what is here reads scripts and
//! blocks by docs/SCRIPT.md, GRAMMAR.md and BLOCK.md to show them and to compare states.

mod args;
pub mod check;
pub mod course;
pub mod due;
pub mod explore;
pub mod fault;
mod files;
mod help;
pub mod layout;
pub mod narrate;
mod page;
mod play;
pub mod program;
mod schedule;
pub mod script;
pub mod shown;
pub mod source;
pub mod state;
pub mod text;
mod words;

pub use program::{run, Streams};
