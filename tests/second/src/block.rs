//! The state block: its bytes read as a state and written back, as docs/BLOCK.md lays them out.
//! Reading tests every byte, so that a state has one block only. It goes part by part: each byte is read with one of them.

use crate::expr::{number, number_words};
use crate::state::{
    Binding, Closure, Environment, Focus, Frame, Object, State, Tree, Value, MOST_BINDINGS, MOST_FRAMES, MOST_OBJECTS,
    MOST_THREADS,
};
use crate::types::Types;
use std::ops::Range;
use std::slice::Iter;

/// "The block grows to 65,536 bytes, so question 20 asks that."
pub const LENGTH: usize = 65_536;
/// A tree with 32 threads has 31 joins.
pub const MOST_POSITIONS: usize = 2 * MOST_THREADS - 1;

/// Words of the header, of a value and of a record.
const HEADER: usize = 4;
pub const VALUE: usize = 3;
const MOST_FIELDS: usize = 8;
const OBJECT: usize = 2 + MOST_FIELDS * VALUE;
const BINDING: usize = 3 + VALUE;
const POSITION: usize = 4 + VALUE;
const FRAME: usize = 3;

const OBJECTS_AT: usize = HEADER;
const BINDINGS_AT: usize = OBJECTS_AT + OBJECT * MOST_OBJECTS;
const POSITIONS_AT: usize = BINDINGS_AT + BINDING * MOST_BINDINGS;
const FRAMES_AT: usize = POSITIONS_AT + POSITION * MOST_POSITIONS;
const END: usize = FRAMES_AT + FRAME * MOST_FRAMES;

/// The areas of the block, in the order of the block.
#[derive(Clone, Copy, Debug, PartialEq, Eq, PartialOrd, Ord)]
pub enum Area {
    Objects,
    Bindings,
    Positions,
    Frames,
}

impl Area {
    pub const ALL: [Area; 4] = [Area::Objects, Area::Bindings, Area::Positions, Area::Frames];

    /// Words of a record.
    pub fn width(self) -> usize {
        [OBJECT, BINDING, POSITION, FRAME][self as usize]
    }

    pub fn bytes(self) -> Range<usize> {
        let words = [OBJECTS_AT, BINDINGS_AT, POSITIONS_AT, FRAMES_AT, END];
        2 * words[self as usize]..2 * words[self as usize + 1]
    }

    /// In which words of a record values begin.
    pub fn value_columns(self) -> Vec<usize> {
        match self {
            Area::Objects => (0..MOST_FIELDS).map(|field| 2 + field * VALUE).collect(),
            Area::Bindings => vec![2],
            Area::Positions => vec![3],
            Area::Frames => vec![],
        }
    }

    /// The byte of the header where the number of records stands.
    pub fn count_at(self) -> usize {
        [0, 2, 6, 4][self as usize]
    }
}

/// The first word of a tree position and of a frame.
const AT_NODE: u16 = 1;
const WITH_VALUE: u16 = 2;
const FAILED: u16 = 3;
const JOIN: u16 = 4;
const WAITING: u16 = 1;
const CAST: u16 = 2;
const LOCK: u16 = 3;

/// The first word of a value.
const NULL: u16 = 0;
const OBJECT_NUMBER: u16 = 1;
const NUMBER: u16 = 2;

/// The objects of a block, if the bytes of their part are in order. Numbers of objects and types are well-formedness's to
/// judge, except that an object's class says which of its words are fields.
pub fn read_objects(block: &[u8], types: &Types) -> Option<Vec<Object>> {
    records(block, Area::Objects)?.iter().map(|record| read_object(record, types)).collect()
}

/// The bindings, likewise.
pub fn read_bindings(block: &[u8]) -> Option<Vec<Binding>> {
    records(block, Area::Bindings)?.iter().map(read_binding).collect()
}

/// The tree with its frames, likewise; the bytes behind the areas belong to this part too.
pub fn read_threads(block: &[u8]) -> Option<Tree> {
    let (positions, frames) = (records(block, Area::Positions)?, records(block, Area::Frames)?);
    let (mut positions, mut frames) = (positions.iter(), frames.iter());
    let tree = read_tree(&mut positions, &mut frames)?;
    let nothing_over = positions.len() == 0 && frames.len() == 0 && is_zero(&block[2 * END..]);
    nothing_over.then_some(tree)
}

/// The records of an area that the header counts, if it has so many and zeros behind them.
fn records<const W: usize>(block: &[u8], area: Area) -> Option<Vec<[u16; W]>> {
    let count = u16::from_le_bytes([block[area.count_at()], block[area.count_at() + 1]]);
    let (used, rest) = block[area.bytes()].split_at_checked(2 * W * count as usize)?;
    let word = |record: &[u8], at: usize| u16::from_le_bytes([record[2 * at], record[2 * at + 1]]);
    let record = |record: &[u8]| std::array::from_fn(|at| word(record, at));
    is_zero(rest).then(|| used.chunks_exact(2 * W).map(record).collect())
}

/// All bytes in one sum, which is faster than a look at each.
fn is_zero(bytes: &[u8]) -> bool {
    bytes.iter().fold(0, |all, byte| all | byte) == 0
}

/// Null is 0 0 0, object n is 1 n 0, a number is 2, its low word and its high word; any other three words are no value.
fn read_value(words: &[u16; VALUE]) -> Option<Value> {
    match *words {
        [NULL, 0, 0] => Some(Value::Null),
        [OBJECT_NUMBER, object, 0] => Some(Value::Object(object)),
        [NUMBER, low, high] => Some(Value::Number(number(low, high))),
        _ => None,
    }
}

/// "0 has no binding; n + 1 begins with binding number n."
fn read_environment(word: u16) -> Environment {
    word.checked_sub(1)
}

fn read_object(&[class, shut, ref values @ ..]: &[u16; OBJECT], types: &Types) -> Option<Object> {
    if !types.is_class(class) || shut > 1 {
        return None;
    }
    let (fields, unused) = values.as_chunks().0.split_at_checked(types.fields(class).len())?;
    let fields = fields.iter().map(read_value).collect::<Option<_>>()?;
    unused.as_flattened().iter().all(|&word| word == 0).then_some(Object { class, shut: shut == 1, fields })
}

fn read_binding(&[name, ty, kind, low, high, link]: &[u16; BINDING]) -> Option<Binding> {
    Some(Binding { name, ty, value: read_value(&[kind, low, high])?, beneath: read_environment(link) })
}

/// Takes the records of a position and of all beneath it; frames lie in the same order.
fn read_tree(positions: &mut Iter<[u16; POSITION]>, frames: &mut Iter<[u16; FRAME]>) -> Option<Tree> {
    let &[kind, node, environment, ref value @ .., count] = positions.next()?;
    let closure = Closure { node, environment: read_environment(environment) };
    let frames_here = (0..count).map(|_| read_frame(frames.next()?)).collect::<Option<_>>()?;
    let nothing = *value == [0; VALUE];
    let focus = match [kind, node, environment, count] {
        [AT_NODE, ..] if nothing => Focus::Node(closure),
        [WITH_VALUE, 0, 0, _] => Focus::Value(read_value(value)?),
        [FAILED, 0, 0, 0] if nothing => Focus::Failed,
        [JOIN, ..] if nothing => {
            let left = read_tree(positions, frames)?;
            let right = read_tree(positions, frames)?;
            Focus::Join { last: closure, sides: Box::new([left, right]) }
        }
        _ => return None,
    };
    Some(Tree { frames: frames_here, focus })
}

fn read_frame(record: &[u16; FRAME]) -> Option<Frame> {
    match *record {
        [WAITING, node, environment] => {
            Some(Frame::Waiting(Closure { node, environment: read_environment(environment) }))
        }
        [CAST, node, 0] => Some(Frame::Cast { node }),
        [LOCK, object, 0] => Some(Frame::Lock { object }),
        _ => None,
    }
}

/// The block of a state that keeps the limits.
pub fn write(state: &State) -> Vec<u8> {
    let (mut positions, mut frames) = (vec![], vec![]);
    for position in state.tree.positions() {
        positions.push(position_record(position.tree));
        frames.extend(position.tree.frames.iter().map(frame_record));
    }
    let objects: Vec<[u16; OBJECT]> = state.objects.iter().map(object_record).collect();
    let bindings: Vec<[u16; BINDING]> = state.bindings.iter().map(binding_record).collect();
    let mut block = vec![0; LENGTH];
    let counts = [objects.len(), bindings.len(), frames.len(), positions.len()].map(|count| count as u16);
    put(&mut block, &counts);
    put(&mut block[Area::Objects.bytes()], objects.as_flattened());
    put(&mut block[Area::Bindings.bytes()], bindings.as_flattened());
    put(&mut block[Area::Positions.bytes()], positions.as_flattened());
    put(&mut block[Area::Frames.bytes()], frames.as_flattened());
    block
}

/// Words, low byte first, at the beginning of these bytes.
fn put(bytes: &mut [u8], words: &[u16]) {
    for (to, word) in bytes.chunks_exact_mut(2).zip(words) {
        to.copy_from_slice(&word.to_le_bytes());
    }
}

pub fn value_words(value: Value) -> [u16; VALUE] {
    match value {
        Value::Null => [NULL, 0, 0],
        Value::Object(object) => [OBJECT_NUMBER, object, 0],
        Value::Number(number) => {
            let [low, high] = number_words(number);
            [NUMBER, low, high]
        }
    }
}

fn environment_word(environment: Environment) -> u16 {
    environment.map_or(0, |nearest| nearest + 1)
}

fn object_record(object: &Object) -> [u16; OBJECT] {
    let mut record = [0; OBJECT];
    record[0] = object.class;
    record[1] = object.shut.into();
    for (words, field) in record[2..].as_chunks_mut().0.iter_mut().zip(&object.fields) {
        *words = value_words(*field);
    }
    record
}

fn binding_record(binding: &Binding) -> [u16; BINDING] {
    let [kind, low, high] = value_words(binding.value);
    [binding.name, binding.ty, kind, low, high, environment_word(binding.beneath)]
}

fn position_record(tree: &Tree) -> [u16; POSITION] {
    let frames = tree.frames.len() as u16;
    match &tree.focus {
        Focus::Node(at) => [AT_NODE, at.node, environment_word(at.environment), 0, 0, 0, frames],
        Focus::Value(value) => {
            let [kind, low, high] = value_words(*value);
            [WITH_VALUE, 0, 0, kind, low, high, frames]
        }
        Focus::Failed => [FAILED, 0, 0, 0, 0, 0, frames],
        Focus::Join { last, .. } => [JOIN, last.node, environment_word(last.environment), 0, 0, 0, frames],
    }
}

fn frame_record(frame: &Frame) -> [u16; FRAME] {
    match *frame {
        Frame::Waiting(at) => [WAITING, at.node, environment_word(at.environment)],
        Frame::Cast { node } => [CAST, node, 0],
        Frame::Lock { object } => [LOCK, object, 0],
    }
}
