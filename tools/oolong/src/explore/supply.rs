//! Which stores no run can fill from here on. A store that some run may fill is one that every thread can touch; the others are nobody's concern (docs/EXPLORE.md).

use crate::layout::{BINDINGS_MOST, FRAMES_MOST, OBJECTS_MOST, THREADS_MOST};
use crate::script::{Method, Node, Script};
use crate::state::{Frame, Kind, State};

/// No bound: methods that call each other in a circle.
const ENDLESS: usize = 1 << 40;

/// Bounds of what running an expression takes: objects and bindings in all, since they are never freed; frames and threads at one time.
#[derive(Clone, Copy, Debug, PartialEq, Eq)]
pub struct Needs {
    pub objects: usize,
    pub bindings: usize,
    pub frames: usize,
    pub threads: usize,
}

/// A thread that does nothing more.
const NOTHING: Needs = Needs { objects: 0, bindings: 0, frames: 0, threads: 1 };
const WITHOUT_BOUND: Needs = Needs { objects: ENDLESS, bindings: ENDLESS, frames: ENDLESS, threads: ENDLESS };

impl Needs {
    /// One after the other.
    fn then(self, next: Needs) -> Needs {
        Needs {
            objects: (self.objects + next.objects).min(ENDLESS),
            bindings: (self.bindings + next.bindings).min(ENDLESS),
            frames: self.frames.max(next.frames),
            threads: self.threads.max(next.threads),
        }
    }

    /// At the same time.
    fn beside(self, other: Needs) -> Needs {
        let both = self.then(other);
        let frames = (self.frames + other.frames).min(ENDLESS);
        Needs { frames, threads: (self.threads + other.threads).min(ENDLESS), ..both }
    }

    /// With so many frames beneath it.
    fn above(self, frames: usize) -> Needs {
        Needs { frames: (self.frames + frames).min(ENDLESS), ..self }
    }

    /// Whichever of the two it is.
    fn or(self, other: Needs) -> Needs {
        Needs {
            objects: self.objects.max(other.objects),
            bindings: self.bindings.max(other.bindings),
            ..self.then(other)
        }
    }

    fn binding(self, bindings: usize) -> Needs {
        self.then(Needs { bindings, ..NOTHING })
    }
}

/// The stores of a block, each with whether no run from a state can fill it.
#[derive(Clone, Copy, Debug, PartialEq, Eq)]
pub struct Plenty {
    pub objects: bool,
    pub bindings: bool,
    pub frames: bool,
    pub threads: bool,
}

impl Plenty {
    pub fn all(self) -> bool {
        self.objects && self.bindings && self.frames && self.threads
    }
}

/// What each node of a script takes.
pub struct Supply<'a> {
    script: &'a Script,
    nodes: Vec<Needs>,
}

/// What is known of a node while the table is made.
#[derive(Clone, Copy)]
enum Known {
    Not,
    /// A method whose body is being looked at: whoever comes back to it goes round in a circle.
    Underway,
    Is(Needs),
}

struct Maker<'a> {
    script: &'a Script,
    nodes: Vec<Known>,
}

impl Maker<'_> {
    fn node(&mut self, number: usize) -> Needs {
        match self.nodes[number] {
            Known::Is(needs) => return needs,
            Known::Underway => return WITHOUT_BOUND,
            Known::Not => {}
        }
        self.nodes[number] = Known::Underway;
        let needs = match self.script.nodes[number] {
            Node::New { .. } => Needs { objects: 1, ..NOTHING },
            Node::Write { part, .. } | Node::Cast { part, .. } | Node::Lock { part, .. } => self.node(part).above(1),
            Node::Call { method, part, .. } => self.node(part).above(1).binding(2).then(self.named(method)),
            Node::Let { first, last, .. } => self.node(first).above(1).binding(1).then(self.node(last)),
            Node::Fork { left, right, last } => self.node(left).beside(self.node(right)).then(self.node(last)),
            _ => NOTHING,
        };
        self.nodes[number] = Known::Is(needs);
        needs
    }

    /// Any method of this name.
    fn named(&mut self, name: usize) -> Needs {
        let script = self.script;
        let bodies = script.methods.iter().filter(|method: &&Method| method.name == name);
        bodies.fold(NOTHING, |needs, method| needs.or(self.node(method.body)))
    }
}

impl<'a> Supply<'a> {
    pub fn of(script: &'a Script) -> Supply<'a> {
        let mut maker = Maker { script, nodes: vec![Known::Not; script.nodes.len()] };
        let nodes = (0..script.nodes.len()).map(|number| maker.node(number)).collect();
        Supply { script, nodes }
    }

    fn named(&self, name: usize) -> Needs {
        let bodies = self.script.methods.iter().filter(|method| method.name == name);
        bodies.fold(NOTHING, |needs, method| needs.or(self.nodes[method.body]))
    }

    /// What goes on when a frame gets its value.
    fn frame(&self, frame: Frame) -> Needs {
        let Frame::Waiting { node, .. } = frame else { return NOTHING };
        match self.script.nodes[node] {
            Node::Let { last, .. } => NOTHING.binding(1).then(self.nodes[last]),
            Node::Call { method, .. } => NOTHING.binding(2).then(self.named(method)),
            _ => NOTHING,
        }
    }

    /// What a position takes from here on, with all beneath it.
    fn position(&self, state: &State, position: usize) -> Needs {
        let frames = state.frames_of(position);
        let own = match state.positions[position].kind {
            Kind::AtNode { node, .. } => self.nodes[node],
            Kind::Join { node, .. } => {
                let (left, right) = state.sides(position);
                self.position(state, left).beside(self.position(state, right)).then(self.nodes[node])
            }
            Kind::WithValue(_) | Kind::Failed => NOTHING,
        };
        let outer = frames.iter().enumerate().map(|(beneath, &frame)| self.frame(frame).above(beneath));
        outer.fold(own.above(frames.len()), Needs::then)
    }

    /// The stores that no run from this state can fill.
    pub fn plenty(&self, state: &State) -> Plenty {
        let needs = self.position(state, 0);
        Plenty {
            objects: state.objects.len() + needs.objects <= OBJECTS_MOST,
            bindings: state.bindings.len() + needs.bindings <= BINDINGS_MOST,
            frames: needs.frames <= FRAMES_MOST,
            threads: needs.threads <= THREADS_MOST,
        }
    }
}
