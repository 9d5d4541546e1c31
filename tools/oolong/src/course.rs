//! A run, one choice at a time: the engine moves, and each step is told in words.

use crate::due::{due, Due};
use crate::fault::Fault;
use crate::layout::{BLOCK, FLAGS};
use crate::narrate::Told;
use crate::script::Script;
use crate::shown::Shown;
use crate::state::{Kind, State};

/// Why a run came back: oolong.h.
pub const SPENT: u16 = 0;
pub const FINISHED: u16 = 1;
pub const FAILED: u16 = 2;
pub const DEADLOCK: u16 = 3;

/// Which store is full for the move of a stop from 4 on.
pub fn store_name(stop: u16) -> &'static str {
    match stop {
        4 => "objects",
        5 => "bindings",
        6 => "frames",
        _ => "threads",
    }
}

pub struct Course<'a> {
    script: &'a Script,
    pub block: Vec<u8>,
    pub state: State,
    pub flags: [u8; FLAGS],
    pub stop: u16,
    pub read: usize,
    pub moves: usize,
    /// For each position, whether it has moved here since it is there.
    has_moved: Vec<bool>,
    /// The last choice.
    last: usize,
}

/// What a choice came to.
pub struct Step {
    pub choice: u8,
    pub moved: bool,
    pub said: String,
}

/// The block that Start writes for an accepted script.
pub fn start_block(script: &Script) -> Result<Vec<u8>, Fault> {
    let mut block = vec![0; BLOCK];
    let reply = engine::start(&script.file, &mut block);
    match reply.number {
        0 => Ok(block),
        number => Err(Fault::refused(format!("Start refuses the script with {number}"))),
    }
}

/// What is wrong with a save that is refused with this number.
pub fn save_fault(number: u16) -> &'static str {
    match number {
        20 => "it is not 65,536 bytes long, so it was cut, or is no save of this version",
        21 => "its objects are damaged, or not those of a state of this script",
        26 => "its variable bindings are damaged, or not those of a state of this script",
        27 => "its frames, threads, locks or unused rest are damaged, or not those of a state of this script",
        _ => "the engine does not take it",
    }
}

impl<'a> Course<'a> {
    /// The run in a block. One that is no state of the script is refused, with the part that is bad.
    pub fn begin(script: &'a Script, mut block: Vec<u8>) -> Result<Course<'a>, Fault> {
        let reply = engine::run(&script.file, &mut block, &[]);
        if reply.number != 0 {
            return Err(Fault::refused(format!("refused with {}: {}", reply.number, save_fault(reply.number))));
        }
        let state = State::of(script, &block);
        let has_moved = vec![false; state.positions.len()];
        let mut course =
            Course { script, block, state, flags: [0; FLAGS], stop: reply.stop, read: 0, moves: 0, has_moved, last: 0 };
        course.look()?;
        Ok(course)
    }

    /// Asks the engine who can move, and reads the state.
    fn look(&mut self) -> Result<(), Fault> {
        let reply = engine::offer(&self.script.file, &self.block, &mut self.flags);
        if reply.number != 0 {
            return Err(Fault::refused(format!("Offer refuses the block with {}", reply.number)));
        }
        self.state = State::of(self.script, &self.block);
        Ok(())
    }

    pub fn told(&self) -> Told<'_> {
        Told { script: self.script, state: &self.state }
    }

    /// One choice, by Run.
    pub fn choose(&mut self, choice: u8) -> Result<Step, Fault> {
        let position = usize::from(choice);
        let due = (position < self.state.positions.len()).then(|| due(self.script, &self.state, position));
        let words = self.words(position, due);
        let reply = engine::run(&self.script.file, &mut self.block, &[choice]);
        if reply.number != 0 {
            return Err(Fault::refused(format!("Run refuses the block with {}", reply.number)));
        }
        let moved = reply.moves == 1;
        self.last = position;
        (self.stop, self.read, self.moves) =
            (reply.stop, self.read + usize::from(reply.read), self.moves + usize::from(moved));
        if let (true, Some(due)) = (moved, due) {
            self.follow(position, due);
        }
        self.look()?;
        let said = match (moved, reply.stop) {
            (true, _) => words,
            (false, stop @ 4..) => format!("{words}: not made, since there is no room: {} are full", store_name(stop)),
            (false, _) => format!("no move: {words}"),
        };
        Ok(Step { choice, moved, said })
    }

    /// Keeps in mind who has moved, in the tree as it is behind a move.
    fn follow(&mut self, position: usize, due: Due) {
        self.has_moved[position] = true;
        let beneath = position + 1..self.state.positions[position].end;
        match due {
            Due::Forks { .. } => drop(self.has_moved.splice(beneath, [false, false])),
            Due::Joins { .. } | Due::Drops => drop(self.has_moved.drain(beneath)),
            _ => {}
        }
    }

    fn words(&self, position: usize, due: Option<Due>) -> String {
        match due {
            Some(due) => format!("{} {}", self.told().who(position), self.told().words(position, due)),
            None => format!("there is no position {position}"),
        }
    }

    /// This point of the run, to be shown.
    pub fn shown(&self, choice: Option<u8>, said: String) -> Shown {
        Shown { choice, said, state: self.state.clone(), next: self.told().next(&self.flags) }
    }

    /// How the run has ended, or that it has not, in a line.
    pub fn ending(&self) -> String {
        let count = format!("{} of {}", counted(self.moves, "move"), counted(self.read, "choice"));
        match self.stop {
            SPENT => format!("the choices are spent after {count}; the run can go on"),
            FINISHED => format!("finished with {} after {count}", self.result()),
            FAILED => format!("failed after {count}"),
            DEADLOCK => format!("deadlock after {count}: no position can move"),
            stop => format!("stopped with {stop} after {count}: {} are full for the last choice", store_name(stop)),
        }
    }

    /// The value of a run that has finished.
    fn result(&self) -> String {
        match self.state.positions[0].kind {
            Kind::WithValue(value) => self.told().value(value),
            _ => String::new(),
        }
    }

    /// A line for each position that could move and for each thread, if the run has not ended with 1 or 2: one that waits, and one that was only passed over, are told apart.
    pub fn standing(&self) -> Vec<String> {
        if self.stop == FINISHED || self.stop == FAILED {
            return Vec::new();
        }
        let next = self.told().next(&self.flags);
        let positions = (0..next.len()).filter(|&position| next[position].able || self.state.is_thread(position));
        let line = |position: usize| {
            let (who, words) = (self.told().who(position), &next[position].words);
            match (next[position].able, self.has_moved.get(position)) {
                (false, _) => format!("[{position}] {who} {words}"),
                (true, _) if self.stop > DEADLOCK && position == self.last => {
                    format!("[{position}] {who} stands, since there is no room for its move: it {words}")
                }
                (true, Some(true)) => format!("[{position}] {who} can go on: next it {words}"),
                (true, _) => format!(
                    "[{position}] {who} was passed over: it could move, and no choice here has named it; next it {words}"
                ),
            }
        };
        positions.map(line).collect()
    }
}

/// "1 move", "2 moves".
pub fn counted(count: usize, what: &str) -> String {
    format!("{} {what}{}", thousands(count), if count == 1 { "" } else { "s" })
}

/// A number with commas, as 12,345.
pub fn thousands(number: usize) -> String {
    let digits = number.to_string();
    let mut written = String::new();
    for (i, digit) in digits.chars().enumerate() {
        if i > 0 && (digits.len() - i) % 3 == 0 {
            written.push(',');
        }
        written.push(digit);
    }
    written
}
