//! A configuration (Figure 6): the objects, the variable bindings, and the tree of joins and
//! threads, each with the frames that wait for its value.

use crate::types::Type;

pub const MOST_OBJECTS: usize = 256;
pub const MOST_BINDINGS: usize = 2_048;
pub const MOST_FRAMES: usize = 2_048;
pub const MOST_THREADS: usize = 32;

#[derive(Clone, Copy, Debug, PartialEq, Eq)]
pub enum Value {
    Null,
    Object(u16),
    Number(i32),
}

impl Value {
    /// The object that is asked for a field, a method or its lock; none where the target is null.
    pub fn target(self) -> Option<u16> {
        match self {
            Value::Null => None,
            Value::Object(object) => Some(object),
            Value::Number(_) => unreachable!("well-typed targets are no numbers"),
        }
    }
}

#[derive(Clone, Debug, PartialEq, Eq)]
pub struct Object {
    pub class: Type,
    pub shut: bool,
    /// By the class's fields, in the order of declaration.
    pub fields: Vec<Value>,
}

/// The nearest binding, if there is any; links lead from it to the others.
pub type Environment = Option<u16>;

#[derive(Clone, Copy, Debug, PartialEq, Eq)]
pub struct Binding {
    pub name: u16,
    pub ty: Type,
    pub value: Value,
    pub beneath: Environment,
}

/// An expression of the script together with the bindings that it may use.
#[derive(Clone, Copy, Debug, PartialEq, Eq)]
pub struct Closure {
    pub node: u16,
    pub environment: Environment,
}

#[derive(Clone, Copy, Debug, PartialEq, Eq)]
pub enum Frame {
    /// A write, call or let that waits for its first-run part.
    Waiting(Closure),
    Cast {
        node: u16,
    },
    Lock {
        object: u16,
    },
}

/// A thread or a join.
#[derive(Clone, Debug, PartialEq, Eq)]
pub struct Tree {
    /// The outermost first: a value goes to the last.
    pub frames: Vec<Frame>,
    pub focus: Focus,
}

/// What the frames of a tree position wait for.
#[derive(Clone, Debug, PartialEq, Eq)]
pub enum Focus {
    Node(Closure),
    Value(Value),
    /// A failed thread; it has no frame.
    Failed,
    /// Two sides that run, and the part that runs after them.
    Join {
        last: Closure,
        sides: Box<[Tree; 2]>,
    },
}

#[derive(Clone, Debug, PartialEq, Eq)]
pub struct State {
    pub objects: Vec<Object>,
    pub bindings: Vec<Binding>,
    pub tree: Tree,
}

/// A tree position.
pub struct Position<'t> {
    pub tree: &'t Tree,
    /// The number of the topmost join whose leftmost thread is here or beneath; this position's own if it is in no join, or the right side of one.
    top: usize,
}

/// The objects that the thread at this position holds: those of its own lock frames, and of the joins whose leftmost thread it belongs to. These stand right before it, since a join comes before
/// its left side.
pub fn held<'a>(positions: &'a [Position], number: usize) -> impl Iterator<Item = u16> + 'a {
    positions[positions[number].top..=number].iter().flat_map(|position| position.tree.locks())
}

impl State {
    /// "No object, no binding, and one thread at node 0 without a frame."
    pub fn initial() -> State {
        let start = Closure { node: 0, environment: None };
        State { objects: vec![], bindings: vec![], tree: Tree::new(Focus::Node(start)) }
    }
}

/// The bindings of an environment, the nearest first.
pub fn chain(bindings: &[Binding], environment: Environment) -> impl Iterator<Item = &Binding> {
    let at = |environment: Environment| environment.map(|nearest| &bindings[nearest as usize]);
    std::iter::successors(at(environment), move |binding| at(binding.beneath))
}

impl Tree {
    /// A thread or join without frames.
    pub fn new(focus: Focus) -> Tree {
        Tree { frames: vec![], focus }
    }

    /// "A finished thread has a value and no frame."
    pub fn is_finished(&self) -> bool {
        matches!(self.focus, Focus::Value(_)) && self.frames.is_empty()
    }

    pub fn is_failed(&self) -> bool {
        matches!(self.focus, Focus::Failed)
    }

    /// The objects of the lock frames of this position alone.
    pub fn locks(&self) -> impl Iterator<Item = u16> + '_ {
        self.frames.iter().filter_map(|frame| match frame {
            Frame::Lock { object } => Some(*object),
            Frame::Waiting(_) | Frame::Cast { .. } => None,
        })
    }

    /// Every position, "preorder, root 0, left before right".
    pub fn positions(&self) -> Vec<Position<'_>> {
        let mut positions = vec![];
        self.add_positions(0, &mut positions);
        positions
    }

    fn add_positions<'t>(&'t self, top: usize, positions: &mut Vec<Position<'t>>) {
        positions.push(Position { tree: self, top });
        if let Focus::Join { sides, .. } = &self.focus {
            let [left, right] = &**sides;
            left.add_positions(top, positions);
            right.add_positions(positions.len(), positions); // "the left thread keeps the locks, the right has none"
        }
    }

    /// How many positions there are.
    fn size(&self) -> usize {
        match &self.focus {
            Focus::Join { sides, .. } => 1 + sides.iter().map(Tree::size).sum::<usize>(),
            Focus::Node(_) | Focus::Value(_) | Focus::Failed => 1,
        }
    }

    /// The position with this number of preorder.
    pub fn position_mut(&mut self, mut number: usize) -> Option<&mut Tree> {
        let mut tree = self;
        while number > 0 {
            let Focus::Join { sides, .. } = &mut tree.focus else {
                return None;
            };
            let [left, right] = &mut **sides;
            let size = left.size();
            (tree, number) = if number <= size { (left, number - 1) } else { (right, number - 1 - size) };
        }
        Some(tree)
    }
}
