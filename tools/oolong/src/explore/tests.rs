//! What is put is got back, and renamed states are alike.

use super::canonical::{code, decode, Pieces};
use super::coding::{put_number, put_value, Coded};
use super::exact;
use super::set::ByteSet;
use crate::check::accepted;
use crate::course::{start_block, Course};
use crate::layout::BLOCK;
use crate::script::Script;
use crate::source::Source;
use crate::state::{Frame, Kind, State, Value};
use std::path::Path;

fn sample(name: &str) -> Script {
    let path = Path::new(env!("CARGO_MANIFEST_DIR")).join("../../samples").join(name);
    accepted(Source::load(&path).expect("the sample is there")).expect("the sample is accepted")
}

/// Each block of a play in which positions take turns.
fn blocks(script: &Script) -> Vec<Vec<u8>> {
    let mut course = Course::begin(script, start_block(script).expect("a start")).expect("a run");
    let mut blocks = vec![course.block.clone()];
    for turn in 0.. {
        let able: Vec<u8> = (0..course.flags.len()).filter(|&p| course.flags[p] == 1).map(|p| p as u8).collect();
        if able.is_empty() || course.stop != 0 {
            break;
        }
        course.choose(able[turn % able.len()]).expect("a step");
        blocks.push(course.block.clone());
    }
    blocks
}

const SAMPLES: [&str; 5] =
    ["figure10.oolong", "philosophers.oolong", "four-forks.oolong", "accept-middle.words", "petal-open.oolong"];

#[test]
fn numbers_and_values_come_back() {
    let numbers = [0, 1, 127, 128, 16_383, 16_384, u64::from(u32::MAX), 1 << 40];
    let values = [Value::Null, Value::Object(0), Value::Object(255), Value::Number(0), Value::Number(-1)];
    let extremes = [Value::Number(i32::MAX), Value::Number(i32::MIN), Value::Number(70_000), Value::Number(-70_000)];
    let mut bytes = Vec::new();
    numbers.iter().for_each(|&number| put_number(&mut bytes, number));
    values.iter().chain(&extremes).for_each(|&value| put_value(&mut bytes, value));
    let mut coded = Coded(&bytes);
    numbers.iter().for_each(|&number| assert_eq!(coded.number() as u64, number));
    values.iter().chain(&extremes).for_each(|&value| assert_eq!(coded.value(), value));
    assert!(coded.is_empty());
}

#[test]
fn strings_have_their_numbers() {
    let mut set = ByteSet::new();
    let string = |i: usize| format!("{}", i * i % 977).into_bytes();
    let mut first = std::collections::HashMap::new();
    for i in 0..2_000 {
        let (number, new) = set.insert(&string(i)).expect("memory");
        assert_eq!(new, !first.contains_key(&string(i)));
        assert_eq!(*first.entry(string(i)).or_insert(number), number);
        assert_eq!(set.get(number), string(i));
    }
    assert_eq!(set.len(), first.len());
    assert!(set.contains(b"4") && !set.contains(b"no number"));
}

#[test]
fn a_block_comes_back_byte_for_byte() {
    let mut ends = vec![0; BLOCK];
    for at in [0, 1, 5, 15, 16, 17, 40_000, BLOCK - 6, BLOCK - 1] {
        ends[at] = 7;
    }
    let mut cases = vec![vec![0; BLOCK], vec![255; BLOCK], ends];
    cases.extend(SAMPLES.iter().flat_map(|name| blocks(&sample(name))));
    for block in cases {
        let mut back = vec![0; BLOCK];
        exact::decode(&exact::code(&block), &mut back);
        assert!(back == block);
    }
}

#[test]
fn a_state_comes_back_and_is_canonical() {
    for name in SAMPLES {
        let script = sample(name);
        let mut pieces = ByteSet::new();
        for block in blocks(&script) {
            let state = State::of(&script, &block);
            let mut written = vec![0; BLOCK];
            state.write(&mut written);
            assert!(written == block, "{name}: a state has one block");
            let string = code(&state, &mut pieces).expect("memory");
            let canonical = decode(&script, &string, &pieces);
            assert_eq!(code(&canonical, &mut pieces).expect("memory"), string, "{name}: the canonical form is its own");
            canonical.write(&mut written);
            assert_eq!(engine::run(&script.file, &mut written, &[]).number, 0, "{name}: it is well formed");
        }
    }
}

/// The state with its objects in another order.
fn turned_round(state: &State) -> State {
    let count = state.objects.len();
    let other = |value| match value {
        Value::Object(object) => Value::Object(count - 1 - object),
        value => value,
    };
    let mut turned = state.clone();
    turned.objects.reverse();
    turned.objects.iter_mut().for_each(|object| object.fields.iter_mut().for_each(|field| *field = other(*field)));
    turned.bindings.iter_mut().for_each(|binding| binding.value = other(binding.value));
    for frame in &mut turned.frames {
        if let Frame::Lock { object } = frame {
            *object = count - 1 - *object;
        }
    }
    for position in &mut turned.positions {
        if let Kind::WithValue(value) = position.kind {
            position.kind = Kind::WithValue(other(value));
        }
    }
    turned
}

#[test]
fn renamed_states_are_alike_and_changed_ones_are_not() {
    let script = sample("philosophers.oolong");
    for block in blocks(&script) {
        let state = State::of(&script, &block);
        let key = Pieces::of(&state).key();
        assert_eq!(Pieces::of(&turned_round(&state)).key(), key);
        let mut shut = state.clone();
        if let Some(lock) = state.frames.iter().find_map(|frame| match frame {
            Frame::Lock { object } => Some(*object),
            _ => None,
        }) {
            shut.objects[lock].shut = false;
            assert_ne!(Pieces::of(&shut).key(), key);
        }
    }
}
