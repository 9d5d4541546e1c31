//! Single moves where document 01 says more than that they are made.

use second::block;
use second::machine::{Machine, Outcome, Stop, Unmoved};
use second::program::Program;
use second::script::Script;
use second::state::{Binding, Closure, Focus, Frame, State, Tree, Value};
use second::state::{MOST_BINDINGS, MOST_FRAMES};
use second::wellformed::state_of;

const I: u16 = 1;
const C: u16 = 2;
const D: u16 = 3;
const X: u16 = 2;
const Y: u16 = 3;
const M: u16 = 10;
const F: u16 = 20;

/// I = 1 with m from I to I; C = 2 of it gives its parameter, D = 3 of it gives a new D and has
/// a field f: I. The two bodies come after the start's nodes.
fn program(start: &[[u16; 4]]) -> Program {
    let body = start.len() as u16;
    let script = Script {
        interfaces: vec![[0, 1, 0]],
        signatures: vec![[M, I, I]],
        classes: vec![[I, 0, 1], [I, 1, 1]],
        fields: vec![[F, I]],
        methods: vec![[M, I, I, body], [M, I, I, body + 1]],
        nodes: [start, &[[1, 1, 0, 0], [6, D, 0, 0]]].concat(),
    };
    Program::read(&script.encode()).unwrap_or_else(|refusal| panic!("{refusal:?}"))
}

/// The state after these choices, all of which move.
fn after(program: &Program, choices: &[u8]) -> State {
    let mut machine = Machine { program, state: State::initial() };
    for choice in choices {
        assert_eq!(machine.step(*choice), Ok(()));
        assert_eq!(state_of(program, &block::write(&machine.state)).as_ref(), Ok(&machine.state));
    }
    machine.state
}

fn result(start: &[[u16; 4]]) -> (Stop, State) {
    let program = program(start);
    let mut machine = Machine { program: &program, state: State::initial() };
    let Outcome { stop, .. } = machine.run(&[0; 100]);
    (stop, machine.state)
}

/// let x = (I)new D in x.m(new C)
const CALL: [[u16; 4]; 5] = [[5, X, 1, 3], [7, I, 2, 0], [6, D, 0, 0], [4, X, M, 4], [6, C, 0, 0]];

#[test]
fn a_call_is_of_the_objects_class_and_binds_two() {
    let (stop, state) = result(&CALL);
    assert_eq!(stop, Stop::Finished);
    assert_eq!((state.objects[2].class, state.tree.focus), (D, Focus::Value(Value::Object(2))));
    let wanted = [
        Binding { name: X, ty: I, value: Value::Object(0), beneath: None }, // the let: the inferred type
        Binding { name: 0, ty: D, value: Value::Object(0), beneath: None }, // this: the object's class
        Binding { name: 1, ty: I, value: Value::Object(1), beneath: Some(1) }, // the declared type
    ];
    assert_eq!(state.bindings, wanted);
}

#[test]
fn the_nearest_binding_counts() {
    // let x = new C in let x = new D in x
    let (_, state) = result(&[[5, X, 1, 2], [6, C, 0, 0], [5, X, 3, 4], [6, D, 0, 0], [1, X, 0, 0]]);
    assert_eq!(state.tree.focus, Focus::Value(Value::Object(1)));
    assert_eq!(state.bindings[1].beneath, Some(0));
}

#[test]
fn a_write_is_read_back() {
    // let x = new D in let y = x.f = new C in x.f
    let nodes = [[5, X, 1, 2], [6, D, 0, 0], [5, Y, 3, 5], [3, X, F, 4], [6, C, 0, 0], [2, X, F, 0]];
    let (stop, state) = result(&nodes);
    assert_eq!((stop, &state.tree.focus), (Stop::Finished, &Focus::Value(Value::Object(1))));
    assert_eq!(state.objects[0].fields, [Value::Object(1)]);
    assert_eq!((state.bindings[1].ty, state.bindings[1].value), (0, Value::Null));
    // a write gives null
}

/// let x = new D in lock x in fork{lock x in x}{x.f}; new C, with y for x in the right async.
const FORK: [[u16; 4]; 10] = [
    [5, X, 1, 2],
    [6, D, 0, 0],
    [5, Y, 3, 4],
    [1, X, 0, 0],
    [9, X, 5, 0],
    [8, 6, 8, 9],
    [9, X, 7, 0],
    [1, X, 0, 0],
    [2, Y, F, 0],
    [6, C, 0, 0],
];

#[test]
fn the_left_side_keeps_the_locks_and_the_join_the_frames() {
    let program = program(&FORK);
    let forked = [0; 8];
    let state = after(&program, &forked);
    let at = |node: u16| Closure { node, environment: Some(1) };
    assert_eq!(state.tree.frames, [Frame::Lock { object: 0 }]);
    let sides = [6, 8].map(|node| Tree::new(Focus::Node(at(node))));
    assert_eq!(state.tree.focus, Focus::Join { last: at(9), sides: Box::new(sides) });
    // The left thread holds x already: no second frame, and nothing is opened by it.
    let entered = after(&program, &[&forked[..], &[1, 1, 2]].concat());
    assert!(entered.objects[0].shut);
    let joined = after(&program, &[&forked[..], &[1, 1, 2, 0, 0]].concat());
    assert_eq!((joined.tree.frames.len(), joined.objects[0].shut), (1, true));
    let opened = after(&program, &[&forked[..], &[1, 1, 2, 0, 0, 0]].concat());
    assert!(opened.tree.is_finished() && !opened.objects[0].shut);
}

#[test]
fn a_failed_side_fails_the_join_and_objects_stay_shut() {
    // let x = new C in fork{let y = (D)null in y.f}{lock x in x}; new C
    let nodes = [
        [5, X, 1, 2],
        [6, C, 0, 0],
        [8, 3, 7, 9],
        [5, Y, 4, 6],
        [7, D, 5, 0],
        [0; 4],
        [2, Y, F, 0],
        [9, X, 8, 0],
        [1, X, 0, 0],
        [6, C, 0, 0],
    ];
    let program = program(&nodes);
    let state = after(&program, &[0, 0, 0, 0, 2, 1, 1, 1, 1, 1, 1]);
    assert_eq!(state.tree.positions().len(), 3);
    let mut machine = Machine { program: &program, state };
    assert_eq!(machine.offer(), [true, false, true]); // it can fold at once, whatever the right side does
    assert_eq!(machine.run(&[0, 0]), Outcome { stop: Stop::Failed, read: 1, moves: 1 });
    assert_eq!((&machine.state.tree, machine.state.objects[0].shut), (&Tree::new(Focus::Failed), true));
}

/// "A store is full when the chosen move needs more places than that store has left": a move that
/// fails the thread, or enters a lock that the thread holds, needs none.
#[test]
fn moves_that_need_no_place() {
    let calls = program(&CALL);
    let mut state = after(&calls, &[0; 6]);
    assert_eq!(state.tree.frames.len(), 1);
    let filler = Binding { name: Y, ty: 0, value: Value::Null, beneath: None };
    state.bindings.resize(MOST_BINDINGS - 1, filler);
    let mut machine = Machine { program: &calls, state };
    machine.state.tree.focus = Focus::Value(Value::Null);
    assert_eq!(machine.step(0), Err(Unmoved::Full(Stop::BindingsFull)));
    assert_eq!(machine.offer(), [true]);
    machine.state.bindings[0].value = Value::Null;
    assert_eq!((machine.step(0), machine.state.tree.is_failed()), (Ok(()), true));

    let forks = program(&FORK);
    let mut state = after(&forks, &[0; 8]);
    let cast = Frame::Cast { node: 1 };
    state.tree.frames.extend(vec![cast; MOST_FRAMES - 1]);
    let mut machine = Machine { program: &forks, state };
    assert_eq!(machine.step(1), Ok(()));
    machine.state.objects[0].shut = false;
    machine.state.tree.frames[0] = cast;
    machine.state.tree.position_mut(1).expect("the left side").focus =
        Focus::Node(Closure { node: 6, environment: Some(1) });
    assert_eq!(machine.step(1), Err(Unmoved::Full(Stop::FramesFull)));
    assert!(!machine.state.objects[0].shut);
}
