//! States up to renaming. Objects and bindings are numbered by first reach from the tree; what nothing reaches is left out, and only how many there are is kept, since they take up room in the block.

use super::coding::{put_number, put_value, Coded};
use super::set::ByteSet;
use crate::script::Script;
use crate::state::{Binding, Environment, Frame, Kind, Object, Position, State, Value};

/// The numbers that objects and bindings get.
struct Numbers {
    objects: Vec<Option<usize>>,
    object_order: Vec<usize>,
    bindings: Vec<Option<usize>>,
    binding_order: Vec<usize>,
}

impl Numbers {
    fn of(state: &State) -> Numbers {
        let mut numbers = Numbers {
            objects: vec![None; state.objects.len()],
            object_order: Vec::with_capacity(state.objects.len()),
            bindings: vec![None; state.bindings.len()],
            binding_order: Vec::with_capacity(state.bindings.len()),
        };
        for position in &state.positions {
            numbers.reach_kind(state, position.kind);
            for &frame in &state.frames[position.frames.clone()] {
                match frame {
                    Frame::Waiting { environment, .. } => numbers.reach_chain(state, environment),
                    Frame::Lock { object } => numbers.reach(Value::Object(object)),
                    Frame::Cast { .. } => {}
                }
            }
        }
        let mut done = 0;
        while let Some(&object) = numbers.object_order.get(done) {
            state.objects[object].fields.iter().for_each(|&field| numbers.reach(field));
            done += 1;
        }
        numbers
    }

    fn reach_kind(&mut self, state: &State, kind: Kind) {
        match kind {
            Kind::AtNode { environment, .. } | Kind::Join { environment, .. } => self.reach_chain(state, environment),
            Kind::WithValue(value) => self.reach(value),
            Kind::Failed => {}
        }
    }

    fn reach(&mut self, value: Value) {
        let Value::Object(object) = value else { return };
        if self.objects[object].is_none() {
            self.objects[object] = Some(self.object_order.len());
            self.object_order.push(object);
        }
    }

    /// A chain is numbered from its far end, since links must run to earlier bindings.
    fn reach_chain(&mut self, state: &State, environment: Environment) {
        let first = self.binding_order.len();
        let mut next = environment;
        while let Some(binding) = next.filter(|&binding| self.bindings[binding].is_none()) {
            self.binding_order.push(binding);
            next = state.bindings[binding].link;
        }
        self.binding_order[first..].reverse();
        for number in first..self.binding_order.len() {
            let binding = self.binding_order[number];
            self.bindings[binding] = Some(number);
            self.reach(state.bindings[binding].value);
        }
    }

    fn value(&self, value: Value) -> Value {
        match value {
            Value::Object(object) => Value::Object(self.objects[object].unwrap_or(0)),
            other => other,
        }
    }

    /// The word of an environment: 0 for none.
    fn environment(&self, environment: Environment) -> u64 {
        environment.and_then(|binding| self.bindings[binding]).map_or(0, |number| number as u64 + 1)
    }
}

/// The pieces of a canonical state: its objects, its bindings, and then each position with its frames. States share most of them, so a search keeps each once.
pub struct Pieces(pub Vec<Vec<u8>>);

impl Pieces {
    pub fn of(state: &State) -> Pieces {
        let numbers = Numbers::of(state);
        let mut pieces = vec![objects(state, &numbers), bindings(state, &numbers)];
        pieces.extend(state.positions.iter().map(|position| place(state, &numbers, position)));
        Pieces(pieces)
    }

    /// What the state is but for the places that nothing reaches: equal for states that differ by a renaming alone.
    pub fn key(&self) -> Vec<u8> {
        let mut key = Vec::new();
        for piece in &self.0 {
            put_number(&mut key, piece.len() as u64);
            key.extend(piece);
        }
        key
    }
}

fn objects(state: &State, numbers: &Numbers) -> Vec<u8> {
    let mut piece = Vec::new();
    for &object in &numbers.object_order {
        let object = &state.objects[object];
        put_number(&mut piece, 2 * object.class as u64 + u64::from(object.shut));
        object.fields.iter().for_each(|&field| put_value(&mut piece, numbers.value(field)));
    }
    piece
}

fn bindings(state: &State, numbers: &Numbers) -> Vec<u8> {
    let mut piece = Vec::new();
    for &binding in &numbers.binding_order {
        let binding = &state.bindings[binding];
        put_number(&mut piece, binding.variable as u64);
        put_number(&mut piece, binding.type_number as u64);
        put_value(&mut piece, numbers.value(binding.value));
        put_number(&mut piece, numbers.environment(binding.link));
    }
    piece
}

/// A position: what it is, and its frames.
fn place(state: &State, numbers: &Numbers, position: &Position) -> Vec<u8> {
    let mut piece = Vec::new();
    match position.kind {
        Kind::AtNode { node, environment } => {
            put_number(&mut piece, 4 * node as u64);
            put_number(&mut piece, numbers.environment(environment));
        }
        Kind::Join { node, environment } => {
            put_number(&mut piece, 4 * node as u64 + 1);
            put_number(&mut piece, numbers.environment(environment));
        }
        Kind::WithValue(value) => {
            put_number(&mut piece, 2);
            put_value(&mut piece, numbers.value(value));
        }
        Kind::Failed => put_number(&mut piece, 3),
    }
    for frame in &state.frames[position.frames.clone()] {
        match *frame {
            Frame::Waiting { node, environment } => {
                put_number(&mut piece, 3 * node as u64);
                put_number(&mut piece, numbers.environment(environment));
            }
            Frame::Cast { node } => put_number(&mut piece, 3 * node as u64 + 1),
            Frame::Lock { object } => put_number(&mut piece, 3 * numbers.objects[object].unwrap_or(0) as u64 + 2),
        }
    }
    piece
}

/// The string of a state: how many objects and bindings it has room taken for, and the numbers of its pieces. None if there is no memory for the pieces.
pub fn code(state: &State, pieces: &mut ByteSet) -> Option<Vec<u8>> {
    let mut string = Vec::new();
    put_number(&mut string, state.objects.len() as u64);
    put_number(&mut string, state.bindings.len() as u64);
    for piece in &Pieces::of(state).0 {
        put_number(&mut string, pieces.insert(piece)?.0 as u64);
    }
    Some(string)
}

/// The state of a string. Places that nothing reaches hold an object that was just made, and a `this` of type Unit with null.
pub fn decode(script: &Script, string: &[u8], pieces: &ByteSet) -> State {
    let mut coded = Coded(string);
    let (objects_used, bindings_used) = (coded.number(), coded.number());
    let mut objects = decode_objects(script, Coded(pieces.get(coded.number())));
    let mut bindings = decode_bindings(Coded(pieces.get(coded.number())));
    if objects.len() < objects_used {
        objects.resize(objects_used, fresh(script, script.interfaces + 1));
    }
    bindings.resize(bindings_used, Binding { variable: 0, type_number: 0, value: Value::Null, link: None });
    let mut state = State { objects, bindings, frames: Vec::new(), positions: Vec::new() };
    while !coded.is_empty() {
        decode_place(Coded(pieces.get(coded.number())), &mut state);
    }
    state.link_tree();
    state
}

/// A new object of a class.
fn fresh(script: &Script, class: usize) -> Object {
    let initial = |number: bool| if number { Value::Number(0) } else { Value::Null };
    let fields = script.fields_of(class).iter().map(|field| initial(field.type_number == script.int())).collect();
    Object { class, shut: false, fields }
}

fn decode_objects(script: &Script, mut coded: Coded) -> Vec<Object> {
    let mut objects = Vec::new();
    while !coded.is_empty() {
        let word = coded.number();
        let fields = script.fields_of(word / 2).iter().map(|_| coded.value()).collect();
        objects.push(Object { class: word / 2, shut: word % 2 == 1, fields });
    }
    objects
}

fn decode_bindings(mut coded: Coded) -> Vec<Binding> {
    let mut bindings = Vec::new();
    while !coded.is_empty() {
        let (variable, type_number) = (coded.number(), coded.number());
        bindings.push(Binding { variable, type_number, value: coded.value(), link: coded.number().checked_sub(1) });
    }
    bindings
}

fn decode_place(mut coded: Coded, state: &mut State) {
    let word = coded.number();
    let node = word / 4;
    let kind = match word % 4 {
        0 => Kind::AtNode { node, environment: coded.number().checked_sub(1) },
        1 => Kind::Join { node, environment: coded.number().checked_sub(1) },
        2 => Kind::WithValue(coded.value()),
        _ => Kind::Failed,
    };
    let first = state.frames.len();
    while !coded.is_empty() {
        let word = coded.number();
        let number = word / 3;
        state.frames.push(match word % 3 {
            0 => Frame::Waiting { node: number, environment: coded.number().checked_sub(1) },
            1 => Frame::Cast { node: number },
            _ => Frame::Lock { object: number },
        });
    }
    state.positions.push(Position { kind, frames: first..state.frames.len(), above: None, end: 0 });
}
