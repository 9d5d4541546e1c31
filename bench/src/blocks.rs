//! Blocks made by hand, well formed and mostly reached by no run, as states that the second implementation's writer turns into bytes.

use crate::scripts::{BESIDE_CAST, BESIDE_LAST, BESIDE_LEFT, RECURSIVE_BODY};
use second::state::{Binding, Closure, Environment, Focus, Frame, Object, State, Tree, Value};

/// An object of this class without a field.
fn bare(class: u16) -> Object {
    Object { class, shut: false, fields: vec![] }
}

/// A value that waits at so many let frames of `recursive(63, ..)`'s method. The environments have `this` and the parameter at one of so many pairs of types in turn, and each is linked to the
/// one before where there is more than one pair.
pub fn recursion(count: usize, kinds: usize) -> State {
    let (types, class) = (65, 65);
    let mut bindings: Vec<Binding> = vec![];
    let mut environments: Vec<Environment> = vec![];
    for index in 0..count.min(2046) {
        let pair = (index / 2 % kinds) as u16;
        let ty = if index % 2 == 0 { types - pair / types } else { 1 + pair % types };
        let beneath = if kinds == 1 && index % 2 == 0 { None } else { (index as u16).checked_sub(1) };
        bindings.push(Binding { name: index as u16 % 2, ty, value: Value::Object(0), beneath });
        if index % 2 == 1 {
            environments.push(Some(index as u16));
        }
    }
    let waiting = |index: usize| {
        Frame::Waiting(Closure { node: RECURSIVE_BODY, environment: environments[index % environments.len()] })
    };
    let tree = Tree { frames: (0..count).map(waiting).collect(), focus: Focus::Value(Value::Null) };
    State { objects: vec![bare(class)], bindings, tree }
}

/// So many let frames of `recursive(0, ..)` at one environment.
pub fn frames(count: usize) -> State {
    let mut state = bindings(2);
    state.tree.frames = vec![Frame::Waiting(Closure { node: RECURSIVE_BODY, environment: Some(1) }); count];
    state
}

/// So many bindings of `recursive(0, ..)` in one chain, `this` and the parameter in turn, and one let frame in it.
pub fn bindings(count: usize) -> State {
    let binding = |index: u16| {
        let (name, ty) = if index % 2 == 0 { (0, 2) } else { (1, 1) };
        Binding { name, ty, value: Value::Object(0), beneath: index.checked_sub(1) }
    };
    let frame = Frame::Waiting(Closure { node: RECURSIVE_BODY, environment: Some(count as u16 - 1) });
    let tree = Tree { frames: vec![frame], focus: Focus::Value(Value::Null) };
    State { objects: vec![bare(2)], bindings: (0..count as u16).map(binding).collect(), tree }
}

/// So many objects of `full_objects`, each with the next in all its fields.
pub fn objects(count: usize) -> State {
    let object =
        |index: usize| Object { class: 2, shut: false, fields: vec![Value::Object(((index + 1) % count) as u16); 8] };
    State { objects: (0..count).map(object).collect(), ..State::initial() }
}

/// `full_numbers` with so many bindings in one chain and so many fields, all of them numbers, and a number that waits at so many casts.
pub fn numbers(count: usize) -> State {
    let number = |index: usize| Value::Number(65_537 * index as i32 - 1);
    let object = |index: usize| Object { class: 2, shut: false, fields: vec![number(index); 8] };
    let binding = |index: usize| Binding {
        name: 2 + index as u16,
        ty: 3,
        value: number(index),
        beneath: (index as u16).checked_sub(1),
    };
    State {
        objects: (0..count / 8).map(object).collect(),
        bindings: (0..count).map(binding).collect(),
        tree: Tree { frames: vec![Frame::Cast { node: 0 }; count], focus: Focus::Value(number(count)) },
    }
}

/// `beside` with its left side at its beginning, and a right side that waits with so many casts.
pub fn beside_frames(count: usize) -> State {
    let at = |node: u16| Closure { node, environment: None };
    let left = Tree::new(Focus::Node(at(BESIDE_LEFT)));
    let right = Tree { frames: vec![Frame::Cast { node: BESIDE_CAST }; count], focus: Focus::Value(Value::Null) };
    let sides = Box::new([left, right]);
    State { tree: Tree::new(Focus::Join { last: at(BESIDE_LAST), sides }), ..State::initial() }
}
