//! The move that is due at a position: document 01, Moves. Whether a position can move at all the engine says (Offer); this says what the move is, to show it and to tell whom it concerns.

use crate::script::{Node, Script};
use crate::state::{Environment, Frame, Kind, State, Value};

#[derive(Clone, Copy, Debug, PartialEq, Eq)]
pub enum Due {
    /// A null or a constant becomes the thread's value.
    Becomes(Value),
    /// The thread goes into the part of a node that runs first, and leaves a frame.
    Descends {
        node: usize,
    },
    Gives {
        node: usize,
        value: Value,
    },
    Reads {
        node: usize,
        object: usize,
        field: usize,
        value: Value,
    },
    Adds {
        node: usize,
        sum: i32,
    },
    Makes {
        class: usize,
    },
    TakesLock {
        object: usize,
    },
    /// The thread holds the object already.
    Reenters {
        object: usize,
    },
    /// The object is shut, and the thread does not hold it.
    Waits {
        object: usize,
    },
    /// A null target, or a sum outside the range.
    Fails {
        node: usize,
    },
    Forks {
        node: usize,
    },
    Writes {
        node: usize,
        object: usize,
        field: usize,
        value: Value,
    },
    Binds {
        node: usize,
        value: Value,
    },
    Enters {
        node: usize,
        object: usize,
        method: usize,
        value: Value,
    },
    CastDone {
        node: usize,
    },
    Opens {
        object: usize,
    },
    /// A join whose sides have both finished.
    Joins {
        node: usize,
    },
    /// A join with a failed side.
    Drops,
    /// A join with a side that has neither finished nor failed.
    Open,
    Finished(Value),
    Failed,
}

impl Due {
    pub fn can_move(self) -> bool {
        !matches!(self, Due::Waits { .. } | Due::Open | Due::Finished(_) | Due::Failed)
    }
}

/// What is due at a position of a well-formed state.
pub fn due(script: &Script, state: &State, position: usize) -> Due {
    match state.positions[position].kind {
        Kind::AtNode { node, environment } => at_node(script, state, position, node, environment),
        Kind::WithValue(value) => match state.frames_of(position).last() {
            Some(&frame) => with_frame(script, state, value, frame),
            None => Due::Finished(value),
        },
        Kind::Failed => Due::Failed,
        Kind::Join { node, .. } => {
            let (left, right) = state.sides(position);
            if state.is_failed(left) || state.is_failed(right) {
                Due::Drops
            } else if state.is_finished(left) && state.is_finished(right) {
                Due::Joins { node }
            } else {
                Due::Open
            }
        }
    }
}

/// A variable's value; in a well-formed state it is bound.
fn value_of(state: &State, environment: Environment, variable: usize) -> Value {
    state.lookup(environment, variable).map_or(Value::Null, |binding| binding.value)
}

fn at_node(script: &Script, state: &State, position: usize, node: usize, environment: Environment) -> Due {
    let value = |variable| value_of(state, environment, variable);
    match script.nodes[node] {
        Node::Null => Due::Becomes(Value::Null),
        Node::Number(number) => Due::Becomes(Value::Number(number)),
        Node::Variable(variable) => Due::Gives { node, value: value(variable) },
        Node::Write { .. } | Node::Call { .. } | Node::Let { .. } | Node::Cast { .. } => Due::Descends { node },
        Node::New { class } => Due::Makes { class },
        Node::Fork { .. } => Due::Forks { node },
        Node::Read { target, field } => {
            let Value::Object(object) = value(target) else { return Due::Fails { node } };
            let of = &state.objects[object];
            let field = script.field_index(of.class, field).unwrap_or(0);
            Due::Reads { node, object, field, value: of.fields.get(field).copied().unwrap_or(Value::Null) }
        }
        Node::Lock { target, .. } => match value(target) {
            Value::Object(object) => at_lock(state, position, object),
            _ => Due::Fails { node },
        },
        Node::Sum(x, y) => match (value(x), value(y)) {
            (Value::Number(x), Value::Number(y)) => {
                x.checked_add(y).map_or(Due::Fails { node }, |sum| Due::Adds { node, sum })
            }
            _ => Due::Fails { node },
        },
    }
}

fn at_lock(state: &State, position: usize, object: usize) -> Due {
    if !state.objects[object].shut {
        Due::TakesLock { object }
    } else if state.holder(object) == Some(position) {
        Due::Reenters { object }
    } else {
        Due::Waits { object }
    }
}

/// A value at the innermost frame of its thread.
fn with_frame(script: &Script, state: &State, value: Value, frame: Frame) -> Due {
    let (node, environment) = match frame {
        Frame::Lock { object } => return Due::Opens { object },
        Frame::Cast { node } => return Due::CastDone { node },
        Frame::Waiting { node, environment } => (node, environment),
    };
    let object = |target| match value_of(state, environment, target) {
        Value::Object(object) => Some(object),
        _ => None,
    };
    match script.nodes[node] {
        Node::Write { target, field, .. } => object(target).map_or(Due::Fails { node }, |object| {
            let field = script.field_index(state.objects[object].class, field).unwrap_or(0);
            Due::Writes { node, object, field, value }
        }),
        Node::Call { target, method, .. } => object(target).map_or(Due::Fails { node }, |object| {
            let method = script.method_of(state.objects[object].class, method).unwrap_or(0);
            Due::Enters { node, object, method, value }
        }),
        _ => Due::Binds { node, value },
    }
}
