//! Random walks: states that a run of a script reaches, and choice lists that lead far.

use crate::generate::Rng;
use crate::machine::{Machine, Stop};
use crate::program::Program;
use crate::state::State;

/// How a walk chooses among the positions.
struct Schedule {
    /// Leave a position that can move after so many choices, on the average.
    stay: usize,
    /// One choice in so many is any byte, so that some are passed over.
    unaimed_in: usize,
}

impl Schedule {
    fn random(rng: &mut Rng) -> Schedule {
        Schedule { stay: [1, 1, 3, 20][rng.below(4)], unaimed_in: [2, 8, 50][rng.below(3)] }
    }

    /// The next choice; `last` is the one before it.
    fn choose(&self, able: &[bool], last: u8, rng: &mut Rng) -> u8 {
        if rng.one_in(self.unaimed_in) {
            let most = [4, 64, 256][rng.below(3)];
            return rng.below(most) as u8;
        }
        if able.get(last as usize) == Some(&true) && !rng.one_in(self.stay) {
            return last;
        }
        let able: Vec<u8> = (0..).zip(able).filter(|(_, able)| **able).map(|(position, _)| position).collect();
        rng.pick(&able).unwrap_or(last)
    }
}

/// At most `count` choices that lead on from a state, and the state that they lead to. They end
/// where a Run of them would stop, or some choices later.
pub fn walk(program: &Program, state: State, count: usize, rng: &mut Rng) -> (Vec<u8>, State) {
    let schedule = Schedule::random(rng);
    let mut machine = Machine { program, state };
    let mut choices = vec![];
    while choices.len() < count {
        let last = choices.last().copied().unwrap_or(0);
        let choice = schedule.choose(&machine.offer(), last, rng);
        choices.push(choice);
        if machine.run(&[choice]).stop != Stop::ChoicesSpent {
            break;
        }
    }
    let unread = rng.below(4).min(count - choices.len());
    choices.extend((0..unread).map(|_| rng.below(4) as u8));
    (choices, machine.state)
}

/// A state that a run from the start reaches, anywhere between its ends.
pub fn reachable(program: &Program, rng: &mut Rng) -> State {
    let most = [16, 64, 256, 1_024, 4_096][rng.below(5)];
    let (choices, _) = walk(program, State::initial(), most, rng);
    let passed = rng.below(choices.len() + 1);
    let mut machine = Machine { program, state: State::initial() };
    machine.run(&choices[..passed]);
    machine.state
}
