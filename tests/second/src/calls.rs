//! The four calls on lent buffers, and request 6's. A refusal leaves every buffer as it was.

use crate::block;
use crate::machine::Machine;
use crate::program::Program;
use crate::silent::{most_moves, moves_from};
use crate::state::State;
use crate::wellformed::state_of;
use crate::{Question, Refusal};

/// "Is the choice list at most 4,096 bytes (Run), or the flag buffer exactly 63 (Offer)?"
pub const MOST_CHOICES: usize = 4_096;
pub const FLAGS: usize = block::MOST_POSITIONS;

/// What Check answers: number 0, place 0, the start's type and the most silent moves in a row, or a refusal's number and
/// place.
#[derive(Clone, Copy, Debug, PartialEq, Eq)]
pub struct Reply {
    pub number: u16,
    pub place: u16,
    pub ty: u16,
    pub silent: u16,
}

/// What is answered about the silent moves from a node.
#[derive(Clone, Copy, Debug, PartialEq, Eq)]
pub struct SilentReply {
    pub number: u16,
    pub place: u16,
    pub count: u16,
}

/// What Start and Offer answer.
#[derive(Clone, Copy, Debug, PartialEq, Eq)]
pub struct Answer {
    pub number: u16,
    pub place: u16,
}

/// What Run answers.
#[derive(Clone, Copy, Debug, PartialEq, Eq)]
pub struct RunReply {
    pub number: u16,
    pub place: u16,
    pub stop: u16,
    pub read: u16,
    pub moves: u16,
}

/// Judges any bytes whatever; never panics.
pub fn check(script: &[u8]) -> Reply {
    match Program::read(script) {
        Ok(program) => Reply { number: 0, place: 0, ty: program.start_type, silent: most_moves(&program.expressions) },
        Err(Refusal { question, place }) => Reply { number: question as u16, place, ty: 0, silent: 0 },
    }
}

/// "For a thread at a node, given by number": the silent moves that come before anything else it does.
pub fn silent(script: &[u8], node: u32) -> SilentReply {
    match Program::read(script) {
        Ok(program) => SilentReply { number: 0, place: 0, count: moves_from(&program.expressions, node) },
        Err(Refusal { question, place }) => SilentReply { number: question as u16, place, count: 0 },
    }
}

/// "Writes the initial block over anything."
pub fn start(script: &[u8], lent: &mut [u8]) -> Answer {
    let asked = Program::read(script).and_then(|_| has_length(lent));
    if asked.is_ok() {
        lent.copy_from_slice(&block::write(&State::initial()));
    }
    answer(asked)
}

/// "Sets a byte to 1 for each tree position that can move and 0 for all others."
pub fn offer(script: &[u8], lent: &[u8], flags: &mut [u8]) -> Answer {
    answer(try_offer(script, lent, flags))
}

fn try_offer(script: &[u8], lent: &[u8], flags: &mut [u8]) -> Result<(), Refusal> {
    let program = Program::read(script)?;
    let machine = open(&program, lent, flags.len() == FLAGS)?;
    flags.fill(0);
    for (flag, can_move) in flags.iter_mut().zip(machine.offer()) {
        *flag = can_move.into();
    }
    Ok(())
}

/// Reads choices, moves, and leaves the block after the last move.
pub fn run(script: &[u8], lent: &mut [u8], choices: &[u8]) -> RunReply {
    match try_run(script, lent, choices) {
        Ok(reply) => reply,
        Err(Refusal { question, place }) => RunReply { number: question as u16, place, stop: 0, read: 0, moves: 0 },
    }
}

fn try_run(script: &[u8], lent: &mut [u8], choices: &[u8]) -> Result<RunReply, Refusal> {
    let program = Program::read(script)?;
    let mut machine = open(&program, lent, choices.len() <= MOST_CHOICES)?;
    let outcome = machine.run(choices);
    lent.copy_from_slice(&block::write(&machine.state));
    Ok(RunReply { number: 0, place: 0, stop: outcome.stop as u16, read: outcome.read, moves: outcome.moves })
}

/// Questions 20 and 22, in document 01's order, and then 21, 26 and 27.
fn open<'p>(program: &'p Program, lent: &[u8], other_buffer_fits: bool) -> Result<Machine<'p>, Refusal> {
    has_length(lent)?;
    if !other_buffer_fits {
        return Err(Refusal { question: Question::BufferLength, place: 0 });
    }
    let state = state_of(program, lent).map_err(|question| Refusal { question, place: 0 })?;
    Ok(Machine { program, state })
}

fn has_length(lent: &[u8]) -> Result<(), Refusal> {
    if lent.len() == block::LENGTH {
        Ok(())
    } else {
        Err(Refusal { question: Question::BlockLength, place: 0 })
    }
}

fn answer(asked: Result<(), Refusal>) -> Answer {
    match asked {
        Ok(()) => Answer { number: 0, place: 0 },
        Err(Refusal { question, place }) => Answer { number: question as u16, place },
    }
}
