//! Which thread may be moved alone: one whose next move touches nothing that others can touch. docs/EXPLORE.md says which moves these are, and why no end is lost.

use super::effects::{has, Effects, Table};
use super::supply::{Plenty, Supply};
use crate::due::{due, Due};
use crate::script::{Node, Script};
use crate::state::{State, Value};

pub struct Alone<'a> {
    script: &'a Script,
    supply: Supply<'a>,
    table: Table<'a>,
}

/// For each object the positions that reach it, a bit each, and for each position what it may still do.
struct Reach {
    objects: Vec<u64>,
    effects: Vec<Effects>,
}

impl<'a> Alone<'a> {
    pub fn of(script: &'a Script) -> Alone<'a> {
        Alone { script, supply: Supply::of(script), table: Table::of(script) }
    }

    /// The first position of those that can move whose move may go first, without any other being tried.
    pub fn position(&self, state: &State, flags: &[u8]) -> Option<usize> {
        let able = || (0..state.positions.len()).filter(|&position| flags[position] == 1);
        if able().count() < 2 {
            return able().next();
        }
        let plenty = self.supply.plenty(state);
        let mut reach = None;
        able().find(|&position| {
            let due = due(self.script, state, position);
            room(due, plenty) && self.is_local(state, position, due, &mut reach)
        })
    }

    /// Can nobody else touch what the move touches, objects and locks? If one of the others reaches an object, it may hand it on, so that each of them may come to touch it. Who reaches what is found
    /// out at most once.
    fn is_local(&self, state: &State, position: usize, due: Due, reach: &mut Option<Reach>) -> bool {
        let concurrent = |other: &usize| !(*other <= position && position < state.positions[*other].end);
        let mut others = |object: usize, touches: &dyn Fn(&Effects) -> bool| {
            let reach = reach.get_or_insert_with(|| self.reach(state));
            let others = || (0..state.positions.len()).filter(concurrent);
            others().any(|other| reach.objects[object] >> other & 1 == 1)
                && others().any(|other| touches(&reach.effects[other]))
        };
        match due {
            Due::Reads { node, object, .. } => {
                let field = self.field(node);
                !others(object, &|effects| has(effects.writes, field))
            }
            Due::Writes { node, object, .. } => {
                let field = self.field(node);
                !others(object, &|effects| has(effects.writes, field) || has(effects.reads, field))
            }
            Due::TakesLock { object } => !others(object, &|effects| effects.locks),
            _ => true,
        }
    }

    /// The field that a read or a write names.
    fn field(&self, node: usize) -> usize {
        match self.script.nodes[node] {
            Node::Read { field, .. } | Node::Write { field, .. } => self.table.field(field),
            _ => 0,
        }
    }

    /// Who reaches what: from the names that each position still uses, and on through fields.
    fn reach(&self, state: &State) -> Reach {
        let mut objects = vec![0u64; state.objects.len()];
        let mut grown: Vec<usize> = Vec::new();
        for position in 0..state.positions.len() {
            for object in self.table.roots(state, position) {
                objects[object] |= 1 << position;
                grown.push(object);
            }
        }
        while let Some(object) = grown.pop() {
            for &field in &state.objects[object].fields {
                let Value::Object(next) = field else { continue };
                if objects[object] & !objects[next] != 0 {
                    objects[next] |= objects[object];
                    grown.push(next);
                }
            }
        }
        let effects = (0..state.positions.len()).map(|position| self.table.position(state, position)).collect();
        Reach { objects, effects }
    }
}

/// Is there plenty in each store that the move takes a place of, or gives one back to?
fn room(due: Due, plenty: Plenty) -> bool {
    match due {
        Due::Becomes(_) | Due::Gives { .. } | Due::Reads { .. } | Due::Adds { .. } | Due::Reenters { .. } => true,
        Due::Makes { .. } => plenty.objects,
        Due::Forks { .. } | Due::Joins { .. } => plenty.threads,
        Due::Binds { .. } | Due::Enters { .. } => plenty.bindings && plenty.frames,
        Due::Descends { .. } | Due::TakesLock { .. } | Due::Opens { .. } => plenty.frames,
        Due::Writes { .. } | Due::CastDone { .. } | Due::Fails { .. } => plenty.frames,
        Due::Drops => plenty.all(),
        Due::Waits { .. } | Due::Open | Due::Finished(_) | Due::Failed => false,
    }
}
