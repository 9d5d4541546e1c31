//! What `due` says of a position against what the engine then does: whether it can move is Offer's flag, and the move leads to just the state that it says.

mod common;

use common::dice::Dice;
use common::plain::{each, Seen};
use common::tight::{self, Room};
use common::writer::{text, Shape};
use common::{flags, script, start};
use oolong::due::{due, Due};
use oolong::layout::BLOCK;
use oolong::script::{Node, Script};
use oolong::state::{Binding, Frame, Kind, Object, State, Value};
use std::collections::BTreeMap;

/// A state that can be changed: the frames of each position stand with it.
#[derive(Clone, Debug, PartialEq, Eq)]
struct Machine {
    objects: Vec<Object>,
    bindings: Vec<Binding>,
    places: Vec<(Kind, Vec<Frame>)>,
}

impl Machine {
    fn of(state: &State) -> Machine {
        let places =
            state.positions.iter().enumerate().map(|(i, position)| (position.kind, state.frames_of(i).to_vec()));
        Machine { objects: state.objects.clone(), bindings: state.bindings.clone(), places: places.collect() }
    }

    fn gives(&mut self, position: usize, value: Value) {
        self.places[position].0 = Kind::WithValue(value);
    }

    /// A thread goes on at a node, where it was at another.
    fn goes_on(&mut self, position: usize, node: usize) {
        let Kind::AtNode { environment, .. } = self.places[position].0 else { panic!("it is at no node") };
        self.places[position].0 = Kind::AtNode { node, environment };
    }

    fn binds(&mut self, variable: usize, type_number: usize, value: Value, link: Option<usize>) -> Option<usize> {
        self.bindings.push(Binding { variable, type_number, value, link });
        Some(self.bindings.len() - 1)
    }

    /// The innermost frame, which is done with.
    fn frame(&mut self, position: usize) -> Frame {
        self.places[position].1.pop().expect("there is no frame")
    }

    fn waiting_environment(&mut self, position: usize) -> Option<usize> {
        let Frame::Waiting { environment, .. } = self.frame(position) else { panic!("no frame that waits") };
        environment
    }
}

/// The node that a thread stands at.
fn node_of(state: &State, position: usize) -> usize {
    let Kind::AtNode { node, .. } = state.positions[position].kind else { panic!("it is at no node") };
    node
}

fn part_of(script: &Script, node: usize) -> usize {
    script.nodes[node].parts()[0]
}

/// The state behind a move of a thread that stays one, as `Due` and document 01 say.
fn moved(script: &Script, state: &State, position: usize, due: Due) -> Machine {
    let mut next = Machine::of(state);
    match due {
        Due::Becomes(value) | Due::Gives { value, .. } | Due::Reads { value, .. } => next.gives(position, value),
        Due::Adds { sum, .. } => next.gives(position, Value::Number(sum)),
        Due::Makes { class } => {
            let initial = |field: &oolong::script::Field| match field.type_number == script.int() {
                true => Value::Number(0),
                false => Value::Null,
            };
            let fields = script.fields_of(class).iter().map(initial).collect();
            next.objects.push(Object { class, shut: false, fields });
            next.gives(position, Value::Object(state.objects.len()));
        }
        Due::TakesLock { object } => {
            next.objects[object].shut = true;
            next.places[position].1.push(Frame::Lock { object });
            next.goes_on(position, part_of(script, node_of(state, position)));
        }
        Due::Reenters { .. } => next.goes_on(position, part_of(script, node_of(state, position))),
        Due::Opens { object } => {
            next.objects[object].shut = false;
            assert_eq!(next.frame(position), Frame::Lock { object });
        }
        Due::CastDone { node } => assert_eq!(next.frame(position), Frame::Cast { node }),
        Due::Writes { object, field, value, .. } => {
            next.objects[object].fields[field] = value;
            next.frame(position);
            next.gives(position, Value::Null);
        }
        _ => return changed(script, state, position, due),
    }
    next
}

impl Machine {
    /// A thread at a fork becomes a join of its two asyncs.
    fn forks(&mut self, position: usize, fork: Node) {
        let Node::Fork { left, right, last } = fork else { panic!("no fork") };
        let Kind::AtNode { environment, .. } = self.places[position].0 else { panic!("it is at no node") };
        self.places[position].0 = Kind::Join { node: last, environment };
        let sides = [left, right].map(|node| (Kind::AtNode { node, environment }, Vec::new()));
        self.places.splice(position + 1..position + 1, sides);
    }
}

/// The same of the moves that bind, enter, descend, fork, join and fail.
fn changed(script: &Script, state: &State, position: usize, due: Due) -> Machine {
    let mut next = Machine::of(state);
    match due {
        Due::Descends { node } => {
            let Kind::AtNode { environment, .. } = state.positions[position].kind else { panic!("it is at no node") };
            let cast = matches!(script.nodes[node], Node::Cast { .. });
            let frame = if cast { Frame::Cast { node } } else { Frame::Waiting { node, environment } };
            next.places[position].1.push(frame);
            next.goes_on(position, part_of(script, node));
        }
        Due::Binds { node, value } => {
            let Node::Let { variable, last, .. } = script.nodes[node] else { panic!("no let") };
            let link = next.waiting_environment(position);
            let environment = next.binds(variable, 0, value, link);
            next.places[position].0 = Kind::AtNode { node: last, environment };
        }
        Due::Enters { object, method, value, .. } => {
            next.frame(position);
            let this = next.binds(0, state.objects[object].class, Value::Object(object), None);
            let environment = next.binds(1, script.methods[method].parameter, value, this);
            next.places[position].0 = Kind::AtNode { node: script.methods[method].body, environment };
        }
        Due::Forks { node } => next.forks(position, script.nodes[node]),
        Due::Joins { node } => {
            let Kind::Join { environment, .. } = state.positions[position].kind else { panic!("no join") };
            next.places[position].0 = Kind::AtNode { node, environment };
            next.places.drain(position + 1..position + 3);
        }
        Due::Fails { .. } | Due::Drops => {
            next.places[position] = (Kind::Failed, Vec::new());
            next.places.drain(position + 1..state.positions[position].end);
        }
        due => panic!("{due:?} is no move"),
    }
    next
}

/// How often each kind of move was seen; those that were stopped by a full store stand apart.
type Counts = BTreeMap<String, usize>;

fn kind(due: Due) -> String {
    format!("{due:?}").split(|sign: char| !sign.is_alphanumeric()).next().unwrap_or_default().to_string()
}

fn judge(script: &Script, seen: &Seen, counts: &mut Counts) {
    let state = State::of(script, seen.before);
    let flags = flags(script, seen.before);
    for position in 0..flags.len() {
        let able = position < state.positions.len() && due(script, &state, position).can_move();
        assert_eq!(able, flags[position] == 1, "position {position}");
    }
    let mut written = vec![0; BLOCK];
    state.write(&mut written);
    assert!(written == seen.before, "the state's block is another");
    let Some(position) = seen.position else { return };
    let due = due(script, &state, position);
    let full = seen.reply.moves == 0;
    *counts.entry(kind(due) + if full { ", full" } else { "" }).or_default() += 1;
    if full {
        assert!(seen.before == seen.after && seen.reply.stop >= 4);
        return;
    }
    let after = Machine::of(&State::of(script, seen.after));
    let mut wanted = moved(script, &state, position, due);
    if let (Due::Binds { .. }, Some(wanted), Some(bound)) = (due, wanted.bindings.last_mut(), after.bindings.last()) {
        // The inferred type is the engine's to say.
        wanted.type_number = bound.type_number;
    }
    assert_eq!(after, wanted, "{due:?} at {position}");
}

fn judge_all(name: &str, seed: u64, text: &str, from: impl FnOnce(&Script) -> Vec<u8>, counts: &mut Counts) {
    let script = script(text);
    let from = from(&script);
    let all = std::panic::AssertUnwindSafe(|| each(&script, &from, 300, &mut |seen| judge(&script, &seen, counts)));
    assert!(std::panic::catch_unwind(all).is_ok(), "{name}, seed {seed}:\n{text}");
}

#[test]
fn due_is_what_run_does() {
    let mut counts = Counts::new();
    for seed in 50_000..50_300 {
        judge_all("from the start", seed, &text(seed, Shape::Open, seed % 5 == 0), start, &mut counts);
    }
    for seed in 51_000..51_040 {
        let mut dice = Dice::of(seed);
        let mut free = |least, more| Some(least + dice.below(more));
        let room = Room { objects: free(3, 2), bindings: free(8, 6), frames: free(2, 6), threads: free(1, 2) };
        judge_all(
            "nearly full",
            seed,
            &text(seed, Shape::Beside, true),
            |script| tight::block(script, room, |_| {}),
            &mut counts,
        );
    }
    println!("{counts:?}");
    let moves = "Becomes Descends Gives Reads Adds Makes TakesLock Reenters Fails Forks Writes Binds Enters CastDone Opens Joins Drops";
    for name in moves.split(' ') {
        assert!(counts.get(name).is_some_and(|&count| count >= 10), "{name} was seen too seldom: {counts:?}");
    }
}
