//! Moves and positions in words.

use crate::due::{due, Due};
use crate::script::{Node, Script};
use crate::shown::Next;
use crate::state::{State, Value};

/// A script and a state of it, to speak of.
#[derive(Clone, Copy)]
pub struct Told<'a> {
    pub script: &'a Script,
    pub state: &'a State,
}

impl Told<'_> {
    /// A position by its place in the tree: "thread 0", "left thread of 0", "join 0", "right join of 0".
    pub fn who(self, position: usize) -> String {
        let what = if self.state.is_thread(position) { "thread" } else { "join" };
        match self.state.positions[position].above {
            None => format!("{what} {position}"),
            Some((join, true)) => format!("left {what} of {join}"),
            Some((join, false)) => format!("right {what} of {join}"),
        }
    }

    pub fn object(self, object: usize) -> String {
        match self.state.objects.get(object) {
            Some(known) => format!("object {object} ({})", self.script.type_name(known.class)),
            None => format!("object {object}"),
        }
    }

    pub fn value(self, value: Value) -> String {
        match value {
            Value::Null => "null".into(),
            Value::Object(object) => self.object(object),
            Value::Number(number) => number.to_string(),
        }
    }

    /// What a thread that waits waits for.
    fn wait(self, object: usize) -> String {
        match self.state.holder(object) {
            Some(holder) => format!("waits: {} is held by {holder}", self.object(object)),
            None => format!("waits: {} is shut, and who held it has failed, so it stays shut", self.object(object)),
        }
    }

    /// Why a thread fails at a node.
    fn failure(self, node: usize) -> String {
        let expression = self.script.expression(node);
        let target = match self.script.nodes[node] {
            Node::Sum(..) => return format!("fails: the sum `{expression}` is outside the range of Int"),
            Node::Read { target, .. }
            | Node::Write { target, .. }
            | Node::Call { target, .. }
            | Node::Lock { target, .. } => target,
            _ => return format!("fails at `{expression}`"),
        };
        format!("fails: `{}` is null in `{expression}`", self.script.variable_name(node, target))
    }

    fn field(self, object: usize, field: usize) -> String {
        let class = self.state.objects.get(object).map_or(0, |known| known.class);
        let name = self.script.fields_of(class).get(field).map_or(0, |field| field.name);
        format!("{} of {}", self.script.field_name(name), self.object(object))
    }

    /// What a move does, or why there is none: behind the name of its position.
    pub fn words(self, position: usize, due: Due) -> String {
        let expression = |node| self.script.expression(node);
        match due {
            Due::Becomes(value) => format!("has the value {}", self.value(value)),
            Due::Descends { node } => format!("begins `{}`", expression(node)),
            Due::Gives { node, value } => format!("has `{}`: {}", expression(node), self.value(value)),
            Due::Reads { object, field, value, .. } => {
                format!("reads {}: {}", self.field(object, field), self.value(value))
            }
            Due::Adds { node, sum } => format!("adds `{}`: {sum}", expression(node)),
            Due::Makes { class } => {
                format!("makes object {} ({})", self.state.objects.len(), self.script.type_name(class))
            }
            Due::TakesLock { object } => format!("takes the lock of {}", self.object(object)),
            Due::Reenters { object } => {
                format!("goes on at the lock of {}, which it holds already", self.object(object))
            }
            Due::Waits { object } => self.wait(object),
            Due::Fails { node } => self.failure(node),
            Due::Forks { .. } => format!("forks: its asyncs are positions {} and {}", position + 1, position + 2),
            Due::Writes { object, field, value, .. } => {
                format!("writes {}: {}", self.field(object, field), self.value(value))
            }
            Due::Binds { node, value } => self.bound(node, value),
            Due::Enters { object, method, value, .. } => self.entered(object, method, value),
            Due::CastDone { node } => format!("is done with `{}`", expression(node)),
            Due::Opens { object } => format!("opens the lock of {}", self.object(object)),
            Due::Joins { node } => {
                format!("joins, since both sides have finished, and goes on with `{}`", expression(node))
            }
            Due::Drops => "fails, since a side has failed; all beneath it is dropped".into(),
            Due::Open => "stands until both sides have finished".into(),
            Due::Finished(value) => format!("has finished with {}", self.value(value)),
            Due::Failed => "has failed".into(),
        }
    }

    fn bound(self, node: usize, value: Value) -> String {
        let Node::Let { variable, .. } = self.script.nodes[node] else { return String::new() };
        format!("binds {} to {}", self.script.variable_name(node, variable), self.value(value))
    }

    fn entered(self, object: usize, method: usize, value: Value) -> String {
        let name = self.script.methods.get(method).map_or(0, |method| method.name);
        format!("enters {} of {} with {}", self.script.method_name(name), self.object(object), self.value(value))
    }

    /// What is due at each position.
    pub fn next(self, flags: &[u8]) -> Vec<Next> {
        let next = |position: usize| {
            let due = due(self.script, self.state, position);
            let waits_for = if let Due::Waits { object } = due { Some(object) } else { None };
            Next { able: flags.get(position) == Some(&1), waits_for, words: self.words(position, due) }
        };
        (0..self.state.positions.len()).map(next).collect()
    }
}
