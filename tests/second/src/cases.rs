//! Scripts with blocks to lend to Offer and Run, for comparing two implementations.

use crate::block;
use crate::block_damage::{damage, Edit};
use crate::configure::configuration;
use crate::counters::counters;
use crate::generate::{any, long_running, well_typed, Rng};
use crate::parts::answers;
use crate::program::Program;
use crate::state::State;
use crate::types::Type;
use crate::walk::{reachable, walk};
use crate::{FLAGS, MOST_CHOICES};

/// How long a block was before there were numbers.
const BEFORE_NUMBERS: usize = 49_152;

/// How a block came to be.
#[derive(Clone, Copy, Debug, PartialEq, Eq, PartialOrd, Ord)]
pub enum Origin {
    /// A run from the start led to it.
    Reached,
    /// Well formed, but made without running.
    Made,
    /// One of these with an edit.
    Damaged(Edit),
    /// One of these with two edits or three.
    DamagedAgain,
    /// A buffer of a wrong length, or a script that may be refused.
    Unfit,
}

/// What is lent to a call, and how the block came to be.
pub struct Case {
    pub script: Vec<u8>,
    pub block: Vec<u8>,
    /// For Run: they lead on from the block where it is in order.
    pub choices: Vec<u8>,
    /// For Offer, with bytes that it must write over or leave alone.
    pub flags: Vec<u8>,
    pub origin: Origin,
    /// What Offer and Run may answer, where that is told: 0, or what the edits may lead to.
    pub answers: Option<Vec<u16>>,
}

impl Case {
    pub fn allows(&self, number: u16) -> bool {
        self.answers.as_ref().is_none_or(|answers| answers.contains(&number))
    }
}

/// Any case worth trying.
pub fn any_case(rng: &mut Rng) -> Case {
    let script = [well_typed, counters, long_running, long_running][rng.below(4)](rng);
    let Ok(program) = Program::read(&script) else { unreachable!("these scripts are accepted") };
    let made = rng.one_in(2);
    let state = if made { configuration(&program, rng) } else { reachable(&program, rng) };
    let origin = if made { Origin::Made } else { Origin::Reached };
    let (choices, flags) = (choices(&program, &state, rng), vec![rng.bits() as u8; FLAGS]);
    let answers = Some(vec![0]);
    let mut case = Case { script, block: block::write(&state), choices, flags, origin, answers };
    match rng.below(16) {
        0 => make_unfit(&mut case, program.types.int, rng),
        1..=7 => make_damaged(&mut case, program.types.int, rng),
        _ => {}
    }
    case
}

fn make_damaged(case: &mut Case, int: Type, rng: &mut Rng) {
    let before = case.block.clone();
    let tries = [1, 1, 1, 1, 2, 3][rng.below(6)];
    let edits: Vec<Edit> = (0..tries).filter_map(|_| damage(&mut case.block, int, rng)).collect();
    let mut answers = answers(&case.script, &before, &case.block);
    case.origin = match edits[..] {
        [] => return,
        [edit] => {
            answers.retain(|number| edit.answers().contains(number));
            Origin::Damaged(edit)
        }
        _ => Origin::DamagedAgain,
    };
    case.answers = Some(answers);
}

/// A choice list of any length, made to lead on from the state.
pub fn choices(program: &Program, state: &State, rng: &mut Rng) -> Vec<u8> {
    let most = [2, 10, 100, 1_000, MOST_CHOICES][[0, 0, 1, 1, 1, 2, 2, 2, 3, 4][rng.below(10)]];
    let count = rng.below(most + 1);
    walk(program, state.clone(), count, rng).0
}

/// One or more of the buffers are such that a question about them gets a no.
fn make_unfit(case: &mut Case, int: Type, rng: &mut Rng) {
    (case.origin, case.answers) = (Origin::Unfit, None);
    if rng.one_in(3) {
        case.script = any(rng);
    }
    if rng.one_in(2) {
        damage(&mut case.block, int, rng);
    }
    if rng.one_in(2) {
        let length = [0, BEFORE_NUMBERS, block::LENGTH - 1, block::LENGTH + 1][rng.below(4)];
        case.block.resize(length, 0);
    }
    if rng.one_in(2) {
        case.choices.resize(MOST_CHOICES + 1, 0);
        let length = [0, FLAGS - 1, FLAGS + 1][rng.below(3)];
        case.flags.resize(length, 0);
    }
}
