//! Blocks in which a store is nearly full, made by hand as docs/BLOCK.md allows: a run of a few moves then fills it.

use super::{run, start};
use oolong::layout::{BINDINGS_MOST, FRAMES_MOST, OBJECTS_MOST, THREADS_MOST};
use oolong::script::{Node, Script};
use oolong::state::{Binding, Frame, Kind, Object, Position, State, Value};

/// So many places are left free, where a store is to be nearly full.
#[derive(Clone, Copy, Debug, Default)]
pub struct Room {
    pub objects: Option<usize>,
    pub bindings: Option<usize>,
    pub frames: Option<usize>,
    pub threads: Option<usize>,
}

/// A block of a script just behind its start, and behind the moves that `before` makes, with as much room as is said.
pub fn block(script: &Script, room: Room, before: impl FnOnce(&mut [u8])) -> Vec<u8> {
    let mut block = start(script);
    let beside = room.frames.is_some() || room.threads.is_some();
    if beside {
        fork(script, &mut block);
    }
    let begun = block.clone();
    before(&mut block);
    if beside && State::of(script, &block).is_failed(0) {
        // The thread that waits was dropped.
        block = begun;
    }
    let mut state = State::of(script, &block);
    if let Some(free) = room.objects {
        let class = script.interfaces + 1;
        let initial = |number: bool| if number { Value::Number(0) } else { Value::Null };
        let fields = script.fields_of(class).iter().map(|field| initial(field.type_number == script.int())).collect();
        let most = (OBJECTS_MOST - free).max(state.objects.len());
        state.objects.resize(most, Object { class, shut: false, fields });
    }
    if let Some(free) = room.bindings {
        let unused = Binding { variable: 0, type_number: 0, value: Value::Null, link: None };
        state.bindings.resize(BINDINGS_MOST - free, unused);
    }
    if let Some(free) = room.threads {
        add_threads(&mut state, free);
    }
    if let Some(free) = room.frames {
        add_frames(script, &mut state, free);
    }
    state.write(&mut block);
    run(script, &mut block, &[]);
    block
}

/// Runs up to the first fork, at which a thread is left waiting beside it.
fn fork(script: &Script, block: &mut [u8]) {
    while State::of(script, block).positions.len() == 1 {
        let reply = run(script, block, &[0]);
        assert_eq!(reply.moves, 1, "the start does not come to its fork");
    }
}

/// More threads that wait as the last one does: a row of joins in its place.
fn add_threads(state: &mut State, free: usize) {
    let Some(waiting) = state.positions.pop() else { return };
    let Kind::AtNode { node, environment } = waiting.kind else { panic!("the last thread is not at a node") };
    let frames = state.frames.len()..state.frames.len();
    let position = |kind| Position { kind, frames: frames.clone(), above: None, end: 0 };
    // The waiting thread is there again in the end, and each join adds one.
    let there = 1 + (0..state.positions.len()).filter(|&position| state.is_thread(position)).count();
    for _ in there + free..THREADS_MOST {
        state.positions.push(position(Kind::Join { node, environment }));
        state.positions.push(position(Kind::AtNode { node, environment }));
    }
    state.positions.push(position(Kind::AtNode { node, environment }));
    state.link_tree();
}

/// Frames of a cast for the last thread, which never gives them a value.
fn add_frames(script: &Script, state: &mut State, free: usize) {
    let Some(last) = state.positions.last_mut() else { return };
    let Kind::AtNode { node, .. } = last.kind else { panic!("the last thread is not at a node") };
    let Node::Lock { part, .. } = script.nodes[node] else { panic!("the last thread does not wait") };
    state.frames.resize(FRAMES_MOST - free, Frame::Cast { node: part });
    last.frames.end = state.frames.len();
}

/// A block whose root has many frames of the cast that the script begins with, behind the moves that `before` makes. There is no thread beside it that could need room.
pub fn cast_block(script: &Script, free: usize, before: impl FnOnce(&mut [u8])) -> Vec<u8> {
    let mut block = start(script);
    let begun = block.clone();
    before(&mut block);
    if State::of(script, &block).is_failed(0) {
        // A failed thread has no frame.
        block = begun;
    }
    let mut state = State::of(script, &block);
    let more = (FRAMES_MOST - free).saturating_sub(state.frames.len());
    state.frames.splice(0..0, std::iter::repeat_n(Frame::Cast { node: 0 }, more));
    for (i, position) in state.positions.iter_mut().enumerate() {
        let first = if i == 0 { 0 } else { position.frames.start + more };
        position.frames = first..position.frames.end + more;
    }
    state.write(&mut block);
    run(script, &mut block, &[]);
    block
}
