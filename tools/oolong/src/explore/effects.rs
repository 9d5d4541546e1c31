//! What an expression may do to objects that others reach: which fields it may read and write, and whether it may take a lock, in the methods that it calls too; and its free variables.

use crate::script::{Node, Script};
use crate::state::{Frame, Kind, State, Value};
use std::collections::BTreeSet;

/// Fields by the number of the first record of that name; there are at most 256.
pub type Fields = [u64; 4];

#[derive(Clone, Copy, Debug, Default, PartialEq, Eq)]
pub struct Effects {
    pub reads: Fields,
    pub writes: Fields,
    pub locks: bool,
}

fn both(a: Fields, b: Fields) -> Fields {
    std::array::from_fn(|i| a[i] | b[i])
}

fn only(field: usize) -> Fields {
    std::array::from_fn(|i| if i == field / 64 % 4 { 1 << (field % 64) } else { 0 })
}

pub fn has(fields: Fields, field: usize) -> bool {
    fields[field / 64 % 4] >> (field % 64) & 1 == 1
}

impl Effects {
    fn and(self, other: Effects) -> Effects {
        Effects {
            reads: both(self.reads, other.reads),
            writes: both(self.writes, other.writes),
            locks: self.locks || other.locks,
        }
    }
}

pub struct Table<'a> {
    script: &'a Script,
    nodes: Vec<Effects>,
    free: Vec<BTreeSet<usize>>,
}

impl<'a> Table<'a> {
    pub fn of(script: &'a Script) -> Table<'a> {
        let nodes = vec![Effects::default(); script.nodes.len()];
        let mut table = Table { script, nodes, free: free_variables(script) };
        // A call takes in what its methods do, which may be calls: again until nothing is added.
        while table.pass() {}
        table
    }

    /// One pass over the nodes, parts before their nodes; whether an effect was added.
    fn pass(&mut self) -> bool {
        let mut added = false;
        for number in (0..self.script.nodes.len()).rev() {
            let node = self.script.nodes[number];
            let parts = node.parts().into_iter().fold(self.own(node), |effects, part| effects.and(self.nodes[part]));
            added |= parts != self.nodes[number];
            self.nodes[number] = parts;
        }
        added
    }

    /// What a node does by itself, its parts left out.
    fn own(&self, node: Node) -> Effects {
        match node {
            Node::Read { field, .. } => Effects { reads: only(self.field(field)), ..Effects::default() },
            Node::Write { field, .. } => Effects { writes: only(self.field(field)), ..Effects::default() },
            Node::Lock { .. } => Effects { locks: true, ..Effects::default() },
            Node::Call { method, .. } => {
                let bodies = self.script.methods.iter().filter(|known| known.name == method);
                bodies.fold(Effects::default(), |effects, known| effects.and(self.nodes[known.body]))
            }
            _ => Effects::default(),
        }
    }

    /// A field's name as a number below 256.
    pub fn field(&self, name: usize) -> usize {
        self.script.fields.iter().position(|field| field.name == name).unwrap_or(0)
    }

    /// What a position may still do by itself, those beneath it left out.
    pub fn position(&self, state: &State, position: usize) -> Effects {
        let own = match state.positions[position].kind {
            Kind::AtNode { node, .. } | Kind::Join { node, .. } => self.nodes[node],
            Kind::WithValue(_) | Kind::Failed => Effects::default(),
        };
        state.frames_of(position).iter().fold(own, |effects, &frame| effects.and(self.frame(frame)))
    }

    fn frame(&self, frame: Frame) -> Effects {
        let Frame::Waiting { node, .. } = frame else { return Effects::default() };
        match self.script.nodes[node] {
            Node::Let { last, .. } => self.nodes[last],
            waiting => self.own(waiting),
        }
    }

    /// The objects that a position names: its value, and the free variables of what it still runs.
    pub fn roots(&self, state: &State, position: usize) -> Vec<usize> {
        let mut values = Vec::new();
        let mut variables = |environment, names: &mut dyn Iterator<Item = usize>| {
            values.extend(names.filter_map(|name| state.lookup(environment, name)).map(|binding| binding.value));
        };
        match state.positions[position].kind {
            Kind::AtNode { node, environment } | Kind::Join { node, environment } => {
                variables(environment, &mut self.free[node].iter().copied());
            }
            Kind::WithValue(_) | Kind::Failed => {}
        }
        for &frame in state.frames_of(position) {
            let Frame::Waiting { node, environment } = frame else { continue };
            match self.script.nodes[node] {
                Node::Let { variable, last, .. } => {
                    variables(environment, &mut self.free[last].iter().copied().filter(|&free| free != variable));
                }
                Node::Write { target, .. } | Node::Call { target, .. } => {
                    variables(environment, &mut [target].into_iter())
                }
                _ => {}
            }
        }
        if let Kind::WithValue(value) = state.positions[position].kind {
            values.push(value);
        }
        let object = |value| if let Value::Object(object) = value { Some(object) } else { None };
        values.into_iter().filter_map(object).collect()
    }
}

/// The free variables of each node.
fn free_variables(script: &Script) -> Vec<BTreeSet<usize>> {
    let mut free = vec![BTreeSet::new(); script.nodes.len()];
    for number in (0..script.nodes.len()).rev() {
        let node = script.nodes[number];
        let mut own: BTreeSet<usize> = match node {
            Node::Variable(x) | Node::Read { target: x, .. } | Node::Write { target: x, .. } => [x].into(),
            Node::Call { target: x, .. } | Node::Lock { target: x, .. } => [x].into(),
            Node::Sum(x, y) => [x, y].into(),
            _ => BTreeSet::new(),
        };
        if let Node::Let { variable, first, last } = node {
            own.extend(free[last].iter().filter(|&&x| x != variable));
            own.extend(free[first].iter());
        } else {
            node.parts().into_iter().for_each(|part| own.extend(free[part].iter()));
        }
        free[number] = own;
    }
    free
}
