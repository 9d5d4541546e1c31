//! Types of expressions, to show what does not fit. The engine judges; what is found here is shown only where it agrees.

use crate::script::{records, Node, Script, Section};

/// What a type has for a method's name: the types of parameter and result.
pub type Meaning = (usize, usize);

pub struct Types<'a> {
    script: &'a Script,
    /// The node that each node is a part of.
    parents: Vec<Option<usize>>,
    interfaces: Vec<Vec<usize>>,
    signatures: Vec<Vec<usize>>,
}

/// Where a variable's type is from: the first part of its let, or a declaration.
enum Binding {
    First(usize),
    Declared(usize),
}

enum Member {
    Field(usize),
    Method(usize),
}

/// Who wants a type.
#[derive(Clone, Copy)]
pub enum Wanter {
    Field { class: usize, name: usize },
    Parameter { of: usize, name: usize },
    Cast,
    Result { method: usize },
}

impl<'a> Types<'a> {
    pub fn of(script: &'a Script) -> Types<'a> {
        let mut parents = vec![None; script.nodes.len()];
        for (number, node) in script.nodes.iter().enumerate() {
            for part in node.parts() {
                parents[part] = Some(number);
            }
        }
        let section = |section| records(&script.file, section).1;
        let (interfaces, signatures) = (section(Section::Interface), section(Section::Signature));
        Types { script, parents, interfaces, signatures }
    }

    /// The interface types above a type, itself too if it is one; each once.
    pub fn above(&self, type_number: usize) -> Vec<usize> {
        let first = self.script.class(type_number).map_or(type_number, |class| class.interface);
        let mut found = vec![];
        let mut rest = vec![first];
        while let Some(number) = rest.pop() {
            let Some(words) = number.checked_sub(1).and_then(|i| self.interfaces.get(i)) else { continue };
            if found.contains(&number) {
                continue;
            }
            found.push(number);
            if let [1, left, right] = words[..] {
                rest.extend([right, left]);
            }
        }
        found
    }

    pub fn below(&self, lower: usize, upper: usize) -> bool {
        lower == upper || self.above(lower).contains(&upper)
    }

    /// The signatures of one list: names with their meanings.
    pub fn listed(&self, interface: usize) -> Vec<(usize, Meaning)> {
        let owns = |words: &Vec<usize>| if words[0] == 0 { words[1] } else { 0 };
        let Some(at) = interface.checked_sub(1) else { return vec![] };
        let start: usize = self.interfaces.iter().take(at).map(owns).sum();
        let count = self.interfaces.get(at).map_or(0, owns);
        let own = self.signatures.iter().skip(start).take(count);
        own.map(|words| (words[0], (words[1], words[2]))).collect()
    }

    /// What a type has for a method's name.
    pub fn method(&self, type_number: usize, name: usize) -> Option<Meaning> {
        if self.script.class(type_number).is_some() {
            let method = &self.script.methods[self.script.method_of(type_number, name)?];
            return Some((method.parameter, method.result));
        }
        let mut listed = self.above(type_number).into_iter().flat_map(|interface| self.listed(interface));
        listed.find(|(listed, _)| *listed == name).map(|(_, meaning)| meaning)
    }

    pub fn field(&self, type_number: usize, name: usize) -> Option<usize> {
        let index = self.script.field_index(type_number, name)?;
        self.script.fields_of(type_number).get(index).map(|field| field.type_number)
    }

    /// The nearest binding of a variable around a node.
    fn binding(&self, node: usize, variable: usize) -> Option<Binding> {
        let mut at = node;
        while let Some(parent) = self.parents[at] {
            match self.script.nodes[parent] {
                Node::Let { variable: bound, first, last } if bound == variable && last == at => {
                    return Some(Binding::First(first));
                }
                _ => at = parent,
            }
        }
        let method = self.script.owners[node]?;
        let class = self.script.classes.iter().position(|class| class.methods.contains(&method))?;
        match variable {
            0 => Some(Binding::Declared(self.script.interfaces + 1 + class)),
            1 => Some(Binding::Declared(self.script.methods[method].parameter)),
            _ => None,
        }
    }

    pub fn is_bound(&self, node: usize, variable: usize) -> bool {
        self.binding(node, variable).is_some()
    }

    /// The let whose variable this is at a node lies within the part that begins at `root`.
    fn bound_within(&self, root: usize, node: usize, variable: usize) -> bool {
        let mut at = node;
        while let (true, Some(parent)) = (at != root, self.parents[at]) {
            if matches!(self.script.nodes[parent], Node::Let { variable: v, last, .. } if v == variable && last == at) {
                return true;
            }
            at = parent;
        }
        false
    }

    /// The type of a variable at a node.
    pub fn variable(&self, node: usize, variable: usize) -> Option<usize> {
        match self.binding(node, variable)? {
            Binding::Declared(type_number) => Some(type_number),
            Binding::First(first) => self.inferred(first),
        }
    }

    /// The type that a node gives. It goes from a variable to what its let binds, and so on, until a type is known;
    /// then back through the fields and methods that were asked for on the way.
    pub fn inferred(&self, node: usize) -> Option<usize> {
        let mut members = Vec::new();
        let mut at = node;
        let known = loop {
            let target = match self.script.nodes[at] {
                Node::Null => return None,
                Node::Let { last, .. } | Node::Fork { last, .. } | Node::Lock { part: last, .. } => {
                    at = last;
                    continue;
                }
                Node::Write { .. } => break 0,
                Node::New { class } => break class,
                Node::Cast { to, .. } => break to,
                Node::Number(_) | Node::Sum(..) => break self.script.int(),
                Node::Variable(x) => x,
                Node::Read { target, field } => {
                    members.push(Member::Field(field));
                    target
                }
                Node::Call { target, method, .. } => {
                    members.push(Member::Method(method));
                    target
                }
            };
            match self.binding(at, target)? {
                Binding::First(first) => at = first,
                Binding::Declared(type_number) => break type_number,
            }
        };
        members.iter().rev().try_fold(known, |type_number, member| match member {
            Member::Field(name) => self.field(type_number, *name),
            Member::Method(name) => self.method(type_number, *name).map(|(_, result)| result),
        })
    }

    /// The type that a node is checked against, and who wants it. None where the type is inferred.
    pub fn wanted(&self, node: usize) -> Option<(usize, Wanter)> {
        let mut at = node;
        while let Some(parent) = self.parents[at] {
            match self.script.nodes[parent] {
                Node::Write { target, field: name, .. } => {
                    let class = self.variable(parent, target)?;
                    return Some((self.field(class, name)?, Wanter::Field { class, name }));
                }
                Node::Call { target, method: name, .. } => {
                    let of = self.variable(parent, target)?;
                    return Some((self.method(of, name)?.0, Wanter::Parameter { of, name }));
                }
                Node::Cast { to, .. } => return Some((to, Wanter::Cast)),
                Node::Let { last, .. } | Node::Fork { last, .. } if last != at => return None,
                _ => at = parent,
            }
        }
        let method = self.script.owners[at]?;
        Some((self.script.methods[method].result, Wanter::Result { method }))
    }

    /// The variables that a node names itself, except a let's own.
    pub fn used(node: Node) -> Vec<usize> {
        match node {
            Node::Variable(x) | Node::Read { target: x, .. } | Node::Write { target: x, .. } => vec![x],
            Node::Call { target, .. } | Node::Lock { target, .. } => vec![target],
            Node::Sum(x, y) => vec![x, y],
            _ => vec![],
        }
    }

    /// The free variables of the part that begins at a node, with the node that uses each, in the order of the nodes.
    pub fn free(&self, root: usize) -> Vec<(usize, usize)> {
        let mut within = vec![false; self.script.nodes.len()];
        within[root] = true;
        let mut free = Vec::new();
        // Parts have larger numbers than their nodes.
        for (number, &node) in self.script.nodes.iter().enumerate().skip(root) {
            within[number] |= self.parents[number].is_some_and(|parent| parent >= root && within[parent]);
            if within[number] {
                let used = Types::used(node).into_iter().filter(|&x| !self.bound_within(root, number, x));
                free.extend(used.map(|x| (x, number)));
            }
        }
        free
    }
}
