//! The state of a run, read from a well-formed block to be shown.

use crate::layout::{self, word, BINDINGS, FRAMES, OBJECTS, POSITIONS};
use crate::script::Script;
use std::ops::Range;

#[derive(Clone, Copy, Debug, PartialEq, Eq, Hash)]
pub enum Value {
    Null,
    Object(usize),
    Number(i32),
}

#[derive(Clone, Debug, PartialEq, Eq)]
pub struct Object {
    pub class: usize,
    pub shut: bool,
    /// As many as its class has.
    pub fields: Vec<Value>,
}

#[derive(Clone, Debug, PartialEq, Eq)]
pub struct Binding {
    pub variable: usize,
    pub type_number: usize,
    pub value: Value,
    pub link: Environment,
}

/// The number of the first binding, if there is one.
pub type Environment = Option<usize>;

#[derive(Clone, Copy, Debug, PartialEq, Eq)]
pub enum Frame {
    /// A write, call or let that waits.
    Waiting {
        node: usize,
        environment: Environment,
    },
    Cast {
        node: usize,
    },
    Lock {
        object: usize,
    },
}

#[derive(Clone, Copy, Debug, PartialEq, Eq)]
pub enum Kind {
    AtNode { node: usize, environment: Environment },
    WithValue(Value),
    Failed,
    Join { node: usize, environment: Environment },
}

/// A tree position. The frames are those of `State::frames` with these numbers, outermost first.
#[derive(Clone, Debug, PartialEq, Eq)]
pub struct Position {
    pub kind: Kind,
    pub frames: Range<usize>,
    /// The join above it, and whether it is the left side.
    pub above: Option<(usize, bool)>,
    /// One more than the last position of its part of the tree.
    pub end: usize,
}

#[derive(Clone, Debug, PartialEq, Eq)]
pub struct State {
    pub objects: Vec<Object>,
    pub bindings: Vec<Binding>,
    pub frames: Vec<Frame>,
    pub positions: Vec<Position>,
}

/// The value that begins at a byte of a block.
pub fn value_at(block: &[u8], at: usize) -> Value {
    let (low, high) = (word(block, at + 2), word(block, at + 4));
    match word(block, at) {
        0 => Value::Null,
        1 => Value::Object(low),
        _ => Value::Number((low as u32 | (high as u32) << 16) as i32),
    }
}

/// The environment that a word says.
pub fn environment(word: usize) -> Environment {
    word.checked_sub(1)
}

fn put_value(block: &mut [u8], at: usize, value: Value) {
    let words = match value {
        Value::Null => [0, 0, 0],
        Value::Object(object) => [1, object, 0],
        Value::Number(number) => [2, number as u32 as usize % 65_536, number as u32 as usize / 65_536],
    };
    put_words(block, at, &words);
}

fn put_words(block: &mut [u8], at: usize, words: &[usize]) {
    for (i, &word) in words.iter().enumerate() {
        layout::put(block, at + 2 * i, word);
    }
}

/// The word of an environment.
fn environment_word(environment: Environment) -> usize {
    environment.map_or(0, |binding| binding + 1)
}

impl State {
    /// The state in a block that the engine has not refused.
    pub fn of(script: &Script, block: &[u8]) -> State {
        let each = |area: layout::Area| (0..area.len(block)).map(move |i| area.record(i));
        let objects = each(OBJECTS).map(|at| object(script, block, at)).collect();
        let bindings = each(BINDINGS).map(|at| binding(block, at)).collect();
        let frames = each(FRAMES).map(|at| frame(block, at)).collect();
        let mut state = State { objects, bindings, frames, positions: positions(block) };
        state.link_tree();
        state
    }

    /// Says of each position what is above it and where its part of the tree ends. `open` are the joins whose sides have not all come, with how many have.
    pub fn link_tree(&mut self) {
        let mut open: Vec<(usize, usize)> = Vec::new();
        for i in 0..self.positions.len() {
            self.positions[i].above = open.last().map(|&(join, come)| (join, come == 0));
            self.positions[i].end = i + 1;
            if !self.is_thread(i) {
                open.push((i, 0));
                continue;
            }
            // A thread ends a side: the left one of a join, or the right one, and with it the join, which is a side itself.
            while let Some((join, come)) = open.pop() {
                if come == 0 {
                    open.push((join, 1));
                    break;
                }
                self.positions[join].end = i + 1;
            }
        }
    }

    /// Writes the state's one block over a block that holds a state, or zeros.
    pub fn write(&self, block: &mut [u8]) {
        for area in layout::AREAS {
            let used = area.record(0)..area.record(area.len(block));
            block[used].fill(0);
        }
        let counts = [self.objects.len(), self.bindings.len(), self.frames.len(), self.positions.len()];
        layout::AREAS.iter().zip(counts).for_each(|(area, count)| layout::put(block, area.count, count));
        for (i, object) in self.objects.iter().enumerate() {
            put_words(block, OBJECTS.record(i), &[object.class, usize::from(object.shut)]);
            let fields = OBJECTS.record(i) + layout::OBJECT_FIELDS;
            object
                .fields
                .iter()
                .enumerate()
                .for_each(|(k, &field)| put_value(block, fields + layout::VALUE * k, field));
        }
        for (i, binding) in self.bindings.iter().enumerate() {
            let at = BINDINGS.record(i);
            put_words(block, at, &[binding.variable, binding.type_number]);
            put_value(block, at + layout::BINDING_VALUE, binding.value);
            layout::put(block, at + layout::BINDING_LINK, environment_word(binding.link));
        }
        for (i, frame) in self.frames.iter().enumerate() {
            let words = match *frame {
                Frame::Waiting { node, environment } => [layout::WAITING, node, environment_word(environment)],
                Frame::Cast { node } => [layout::CAST, node, 0],
                Frame::Lock { object } => [layout::LOCK, object, 0],
            };
            put_words(block, FRAMES.record(i), &words);
        }
        self.write_positions(block);
    }

    fn write_positions(&self, block: &mut [u8]) {
        for (i, position) in self.positions.iter().enumerate() {
            let at = POSITIONS.record(i);
            let (words, value) = match position.kind {
                Kind::AtNode { node, environment } => {
                    ([layout::AT_NODE, node, environment_word(environment)], Value::Null)
                }
                Kind::WithValue(value) => ([layout::WITH_VALUE, 0, 0], value),
                Kind::Failed => ([layout::FAILED, 0, 0], Value::Null),
                Kind::Join { node, environment } => ([layout::JOIN, node, environment_word(environment)], Value::Null),
            };
            put_words(block, at, &words);
            put_value(block, at + layout::POSITION_VALUE, value);
            layout::put(block, at + layout::POSITION_FRAMES, position.frames.len());
        }
    }

    pub fn frames_of(&self, position: usize) -> &[Frame] {
        &self.frames[self.positions[position].frames.clone()]
    }

    /// The two sides of a join.
    pub fn sides(&self, join: usize) -> (usize, usize) {
        (join + 1, self.positions[join + 1].end)
    }

    pub fn is_thread(&self, position: usize) -> bool {
        !matches!(self.positions[position].kind, Kind::Join { .. })
    }

    /// A thread with a value and no frame.
    pub fn is_finished(&self, position: usize) -> bool {
        matches!(self.positions[position].kind, Kind::WithValue(_)) && self.positions[position].frames.is_empty()
    }

    pub fn is_failed(&self, position: usize) -> bool {
        self.positions[position].kind == Kind::Failed
    }

    /// The binding of a variable: the nearest counts.
    pub fn lookup(&self, environment: Environment, variable: usize) -> Option<&Binding> {
        let mut next = environment;
        while let Some(binding) = next.and_then(|number| self.bindings.get(number)) {
            if binding.variable == variable {
                return Some(binding);
            }
            next = binding.link;
        }
        None
    }

    /// The thread that goes on with a position's frames: itself, or of a join its leftmost thread.
    pub fn leftmost(&self, position: usize) -> usize {
        (position..).find(|&p| self.is_thread(p)).unwrap_or(position)
    }

    /// The thread that holds an object: the one that will resume the lock frame of it. Nobody holds what a failed thread would have resumed.
    pub fn holder(&self, object: usize) -> Option<usize> {
        let frame = self.frames.iter().position(|frame| *frame == Frame::Lock { object })?;
        let position = self.positions.iter().position(|position| position.frames.contains(&frame))?;
        Some(self.leftmost(position)).filter(|&thread| !self.is_failed(thread))
    }
}

fn object(script: &Script, block: &[u8], at: usize) -> Object {
    let class = word(block, at);
    let fields = script.fields_of(class).len();
    let field = |k: usize| value_at(block, at + layout::OBJECT_FIELDS + layout::VALUE * k);
    Object { class, shut: word(block, at + 2) == 1, fields: (0..fields).map(field).collect() }
}

fn binding(block: &[u8], at: usize) -> Binding {
    Binding {
        variable: word(block, at),
        type_number: word(block, at + 2),
        value: value_at(block, at + layout::BINDING_VALUE),
        link: environment(word(block, at + layout::BINDING_LINK)),
    }
}

fn frame(block: &[u8], at: usize) -> Frame {
    let (kind, second) = (word(block, at), word(block, at + 2));
    match kind {
        layout::WAITING => Frame::Waiting { node: second, environment: environment(word(block, at + 4)) },
        layout::CAST => Frame::Cast { node: second },
        _ => Frame::Lock { object: second },
    }
}

fn kind(block: &[u8], at: usize) -> Kind {
    let (node, environment) = (word(block, at + 2), environment(word(block, at + 4)));
    match word(block, at) {
        layout::AT_NODE => Kind::AtNode { node, environment },
        layout::WITH_VALUE => Kind::WithValue(value_at(block, at + layout::POSITION_VALUE)),
        layout::FAILED => Kind::Failed,
        _ => Kind::Join { node, environment },
    }
}

/// The positions, each with its frames; the tree is linked behind that.
fn positions(block: &[u8]) -> Vec<Position> {
    let mut frames = 0;
    let position = |at: usize| {
        let own = word(block, at + layout::POSITION_FRAMES);
        frames += own;
        Position { kind: kind(block, at), frames: frames - own..frames, above: None, end: 0 }
    };
    (0..POSITIONS.len(block)).map(|i| POSITIONS.record(i)).map(position).collect()
}
