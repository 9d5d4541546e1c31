//! Every schedule of a script, breadth first: from each state that is met all moves are tried, or one alone where that is enough.

use super::alone::Alone;
use super::canonical::{self, Pieces};
use super::exact;
use super::set::ByteSet;
use crate::course::{DEADLOCK, FINISHED, SPENT};
use crate::fault::{Fault, NOT_READABLE};
use crate::layout::{AREAS, BLOCK, FLAGS};
use crate::schedule::Schedule;
use crate::script::Script;
use crate::state::State;
use std::collections::BTreeMap;

/// So many choices a plain run makes at the most where a search has stopped at its bound.
const PROBE: usize = 100_000;

pub struct Options {
    /// So many states are kept at the most.
    pub states: usize,
    /// Nothing is reduced: all moves are tried in every state, and states are equal where their blocks are.
    pub whole: bool,
}

/// An end that a run can come to: what Run stops with, and of the runs that finish, the outcome; of deadlocks, the state. Runs that fail are one end, and so are those that meet one full store.
#[derive(Clone, Debug, PartialEq, Eq, PartialOrd, Ord)]
pub struct End {
    pub stop: u16,
    pub key: Vec<u8>,
}

impl End {
    /// The end of a run that stopped so in this block.
    pub fn of(script: &Script, stop: u16, block: &[u8]) -> End {
        let key = match stop {
            FINISHED | DEADLOCK => Pieces::of(&State::of(script, block)).key(),
            _ => Vec::new(),
        };
        End { stop, key }
    }
}

/// How an end was met first.
#[derive(Clone, Copy, Debug, PartialEq, Eq)]
struct Met {
    state: usize,
    /// The choice that meets a full store.
    last: Option<u8>,
}

/// How far a search has come.
#[derive(Clone, Copy, Debug, Default, PartialEq, Eq)]
pub struct Progress {
    pub states: usize,
    pub moves: usize,
    /// States whose moves are still to be tried.
    pub waiting: usize,
    /// Bytes of memory that are kept for states.
    pub bytes: usize,
}

pub struct Found {
    pub progress: Progress,
    /// All that can be met was met; else the bound on states was reached, or that of the machine's memory.
    pub complete: bool,
    /// Each end, with the shortest list that was found to it. A search that is not complete is followed by some plain runs, whose ends are here too.
    pub ends: BTreeMap<End, Vec<u8>>,
}

struct Search<'a> {
    script: &'a Script,
    options: &'a Options,
    alone: Alone<'a>,
    states: ByteSet,
    pieces: ByteSet,
    /// For each state the one that it was met from, and the choice that led to it.
    parents: Vec<u32>,
    choices: Vec<u8>,
    moves: usize,
    ends: BTreeMap<End, Met>,
    complete: bool,
}

/// Searches from a block that the engine does not refuse. `tell` hears of the progress now and then.
pub fn search(script: &Script, from: &[u8], options: &Options, tell: &mut dyn FnMut(Progress)) -> Result<Found, Fault> {
    let alone = Alone::of(script);
    let mut search = Search {
        script,
        options,
        alone,
        states: ByteSet::new(),
        pieces: ByteSet::new(),
        parents: Vec::new(),
        choices: Vec::new(),
        moves: 0,
        ends: BTreeMap::new(),
        complete: true,
    };
    search.keep(from, 0, 0);
    let (mut block, mut next) = (vec![0; BLOCK], vec![0; BLOCK]);
    for number in 0.. {
        if number == search.states.len() {
            break;
        }
        search.load(number, &mut block);
        search.expand(number, &block, &mut next)?;
        if number % 4096 == 4095 {
            tell(search.progress(number));
        }
    }
    let mut ends: BTreeMap<End, Vec<u8>> =
        search.ends.iter().map(|(end, met)| (end.clone(), search.list(*met))).collect();
    if !search.complete {
        search.probe(from, &mut ends)?;
    }
    Ok(Found { progress: search.progress(search.states.len()), complete: search.complete, ends })
}

/// Copies the records that there are, over a block that holds other ones.
fn copy(from: &[u8], to: &mut [u8]) {
    for area in AREAS {
        let records = area.len(from).max(area.len(to));
        let used = area.record(0)..area.record(records);
        to[used.clone()].copy_from_slice(&from[used]);
    }
    to[..8].copy_from_slice(&from[..8]);
}

/// The blocks of a search are states of the script: if the engine refuses one, the search is wrong, and says so.
fn taken(number: u16) -> Result<(), Fault> {
    if number == 0 {
        return Ok(());
    }
    Err(Fault {
        status: NOT_READABLE,
        line: format!("the search is wrong: its block is refused with {number}; please report it"),
    })
}

impl Search<'_> {
    fn progress(&self, done: usize) -> Progress {
        let bytes = self.states.memory() + self.pieces.memory() + 4 * self.parents.capacity() + self.choices.capacity();
        Progress {
            states: self.states.len(),
            moves: self.moves,
            waiting: self.states.len().saturating_sub(done + 1),
            bytes,
        }
    }

    /// Keeps the state of a block, unless it is known, or there are too many or there is no memory for it.
    fn keep(&mut self, block: &[u8], parent: usize, choice: u8) {
        let string = match self.options.whole {
            true => Some(exact::code(block)),
            false => canonical::code(&State::of(self.script, block), &mut self.pieces),
        };
        let full = self.states.len() >= self.options.states;
        let room = self.parents.try_reserve(1).is_ok() && self.choices.try_reserve(1).is_ok();
        let kept = string.filter(|string| room && !(full && !self.states.contains(string)));
        match kept.and_then(|string| self.states.insert(&string)) {
            Some((_, true)) => {
                self.parents.push(parent as u32);
                self.choices.push(choice);
            }
            Some((_, false)) => {}
            None => self.complete = false,
        }
    }

    /// Writes the block of a state over one that holds another, or zeros.
    fn load(&self, number: usize, block: &mut [u8]) {
        let string = self.states.get(number);
        if self.options.whole {
            block.fill(0);
            exact::decode(string, block);
        } else {
            canonical::decode(self.script, string, &self.pieces).write(block);
        }
    }

    /// Tries the moves of a state.
    fn expand(&mut self, number: usize, block: &[u8], next: &mut [u8]) -> Result<(), Fault> {
        let mut flags = [0; FLAGS];
        taken(engine::offer(&self.script.file, block, &mut flags).number)?;
        let alone = || self.alone.position(&State::of(self.script, block), &flags);
        let alone = if self.options.whole { None } else { alone() };
        let mut moved = false;
        for position in (0..FLAGS).filter(|&position| flags[position] == 1) {
            moved = true;
            if alone.is_none_or(|alone| alone == position) {
                copy(block, next);
                self.make(number, position as u8, next)?;
            }
        }
        if !moved {
            copy(block, next);
            let reply = engine::run(&self.script.file, next, &[]);
            taken(reply.number)?;
            self.end(reply.stop, Met { state: number, last: None }, next);
        }
        Ok(())
    }

    /// One move, by Run.
    fn make(&mut self, number: usize, choice: u8, block: &mut [u8]) -> Result<(), Fault> {
        let reply = engine::run(&self.script.file, block, &[choice]);
        taken(reply.number)?;
        if reply.moves == 0 {
            self.end(reply.stop, Met { state: number, last: Some(choice) }, block);
            return Ok(());
        }
        self.moves += 1;
        self.keep(block, number, choice);
        Ok(())
    }

    /// Takes down an end. The first time counts, since states are met in the order of their distance.
    fn end(&mut self, stop: u16, met: Met, block: &[u8]) {
        let end = End::of(self.script, stop, block);
        self.ends.entry(end).or_insert(met);
    }

    /// A search that stops at its bound has come nowhere far: a few plain runs may still meet an end that it has not.
    fn probe(&self, from: &[u8], ends: &mut BTreeMap<End, Vec<u8>>) -> Result<(), Fault> {
        for mut schedule in Schedule::probes() {
            let (mut block, mut flags, mut list) = (from.to_vec(), [0; FLAGS], Vec::new());
            while list.len() < PROBE {
                taken(engine::offer(&self.script.file, &block, &mut flags).number)?;
                let Some(choice) = schedule.next(&flags) else { break };
                list.push(choice);
                let reply = engine::run(&self.script.file, &mut block, &[choice]);
                taken(reply.number)?;
                if reply.stop != SPENT {
                    ends.entry(End::of(self.script, reply.stop, &block)).or_insert(list);
                    break;
                }
            }
        }
        Ok(())
    }

    /// The choices that led to an end.
    fn list(&self, met: Met) -> Vec<u8> {
        let mut list: Vec<u8> = met.last.into_iter().collect();
        let mut number = met.state;
        while number != 0 {
            list.push(self.choices[number]);
            number = self.parents[number] as usize;
        }
        list.reverse();
        list
    }
}
