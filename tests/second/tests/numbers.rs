//! Request 2: Int, its constants and sums, its fields' first values, and its values in a block.

use second::generate::Rng;
use second::machine::{Machine, Outcome, Stop};
use second::program::Program;
use second::script::{Script, Section};
use second::state::{Binding, Closure, Focus, Frame, Object, State, Tree, Value};
use second::wellformed::state_of;
use second::{block, check, offer, Reply, FLAGS};

const I: u16 = 1;
const C: u16 = 2;
const D: u16 = 3;
const INT: u16 = 4;
const X: u16 = 2;
const Y: u16 = 3;
const Z: u16 = 4;
const N: u16 = 10;
const U: u16 = 11;
const V: u16 = 12;
const M: u16 = 20;

/// A constant's node.
fn constant(number: i32) -> [u16; 4] {
    [10, number as u16, (number >> 16) as u16, 0]
}

/// I = 1 with m from Int to Int; C = 2 of I with fields n: Int, u: Unit and v: I, and m, which
/// gives its parameter; D = 3 of I with m alone; Int = 4. The bodies come after these nodes.
fn script(start: &[[u16; 4]]) -> Script {
    let body = start.len() as u16;
    Script {
        interfaces: vec![[0, 1, 0]],
        signatures: vec![[M, INT, INT]],
        classes: vec![[I, 3, 1], [I, 0, 1]],
        fields: vec![[N, INT], [U, 0], [V, I]],
        methods: vec![[M, INT, INT, body], [M, INT, INT, body + 1]],
        nodes: [start, &[[1, 1, 0, 0], [1, 1, 0, 0]]].concat(),
    }
}

fn accepts(start: &[[u16; 4]], ty: u16) {
    let reply = check(&script(start).encode());
    assert_eq!((reply.number, reply.place, reply.ty), (0, 0, ty), "{start:?}");
}

fn refuses(start: &[[u16; 4]], number: u16, node: usize) {
    let script = script(start);
    let place = script.place(Section::Nodes, node);
    assert_eq!(check(&script.encode()), Reply { number, place, ty: 0, silent: 0 }, "{start:?}");
}

fn program(script: &Script) -> Program {
    Program::read(&script.encode()).unwrap_or_else(|refusal| panic!("{refusal:?}"))
}

/// What choices of position 0 lead to, with the reply's numbers.
fn result(start: &[[u16; 4]]) -> (Outcome, State) {
    let program = program(&script(start));
    let mut machine = Machine { program: &program, state: State::initial() };
    let outcome = machine.run(&[0; 200]);
    assert_eq!(state_of(&program, &block::write(&machine.state)).as_ref(), Ok(&machine.state));
    (outcome, machine.state)
}

/// let x = one in let y = other in x + y
fn sum(one: i32, other: i32) -> [[u16; 4]; 5] {
    [[5, X, 1, 2], constant(one), [5, Y, 3, 4], constant(other), [11, X, Y, 0]]
}

#[test]
fn constants_alone() {
    let minus_one = Script { nodes: vec![[10, 65_535, 65_535, 0]], ..Script::default() };
    assert_eq!(check(&minus_one.encode()), Reply { number: 0, place: 0, ty: 1, silent: 1 });
    let program = program(&minus_one);
    let mut machine = Machine { program: &program, state: State::initial() };
    assert_eq!(machine.run(&[0, 0]), Outcome { stop: Stop::Finished, read: 1, moves: 1 });
    assert_eq!(machine.state.tree, Tree::new(Focus::Value(Value::Number(-1))));
    for number in [0, 1, -1, 65_535, 65_536, -65_536, -65_537, i32::MAX, i32::MIN] {
        accepts(&[constant(number)], INT);
        assert_eq!(result(&[constant(number)]).1.tree.focus, Focus::Value(Value::Number(number)));
    }
    refuses(&[[10, 0, 0, 1]], 7, 0); // the unused word
    refuses(&[[11, 0, 0, 1]], 7, 0);
    refuses(&[[12, 0, 0, 0]], 7, 0);
}

#[test]
fn sums() {
    let (most, least) = (i32::MAX, i32::MIN);
    let numbers = [0, 1, 2, -1, -2, most, most - 1, least, least + 1, 70_000, -70_000];
    for (one, other) in numbers.iter().flat_map(|&one| numbers.map(|other| (one, other))) {
        let (outcome, state) = result(&sum(one, other));
        let wanted = i64::from(one) + i64::from(other);
        // Two lets of three moves each, then the sum in one.
        match i32::try_from(wanted) {
            Ok(wanted) => {
                assert_eq!(outcome, Outcome { stop: Stop::Finished, read: 7, moves: 7 });
                assert_eq!(state.tree, Tree::new(Focus::Value(Value::Number(wanted))));
            }
            Err(_) => {
                assert_eq!(outcome, Outcome { stop: Stop::Failed, read: 7, moves: 7 });
                assert_eq!(state.tree, Tree::new(Focus::Failed));
            }
        }
    }
    accepts(&[[5, X, 1, 2], constant(4), [11, X, X, 0]], INT);
    assert_eq!(result(&[[5, X, 1, 2], constant(4), [11, X, X, 0]]).1.tree.focus, Focus::Value(Value::Number(8)));
}

/// let x = new C in let y = 2,147,483,647 in lock x in let z = y + y in z
#[test]
fn a_failing_sum_leaves_its_lock_shut() {
    let most = constant(i32::MAX);
    let nodes =
        [[5, X, 1, 2], [6, C, 0, 0], [5, Y, 3, 4], most, [9, X, 5, 0], [5, Z, 6, 7], [11, Y, Y, 0], [1, Z, 0, 0]];
    accepts(&nodes, INT);
    let (outcome, state) = result(&nodes);
    assert_eq!(outcome, Outcome { stop: Stop::Failed, read: 9, moves: 9 });
    assert!(state.tree == Tree::new(Focus::Failed) && state.objects[0].shut);
}

#[test]
fn first_values_follow_the_type() {
    let (_, state) = result(&[[6, C, 0, 0]]);
    assert_eq!(state.objects[0].fields, [Value::Number(0), Value::Null, Value::Null]);
}

#[test]
fn where_int_may_stand() {
    answers_to_types(|script| script.signatures[0][1] = INT + 1, 6);
    answers_to_types(|script| script.fields[0][1] = INT + 1, 6);
    answers_to_types(|script| script.methods[0][2] = INT + 1, 6);
    answers_to_types(|script| script.classes[0][0] = INT, 6);
    answers_to_types(|script| script.interfaces.push([1, INT, INT]), 4);
    answers_to_types(|script| script.nodes[0] = [6, INT, 0, 0], 6);
    answers_to_types(|script| script.nodes[0] = [6, INT + 1, 0, 0], 6);
    accepts(&[[7, INT, 1, 0], constant(5)], INT);
    refuses(&[[7, INT + 1, 1, 0], constant(5)], 6, 0);
    // Int is below only itself, and nothing else is below it.
    for ty in [0, I, C, D] {
        refuses(&[[7, ty, 1, 0], constant(5)], 14, 1);
    }
    refuses(&[[7, INT, 1, 0], [6, C, 0, 0]], 14, 1);
    refuses(&[[7, INT, 1, 0], [7, 0, 2, 0], [0; 4]], 14, 1);
}

fn answers_to_types(change: impl Fn(&mut Script), number: u16) {
    let mut script = script(&[constant(1)]);
    change(&mut script);
    assert_eq!(check(&script.encode()).number, number);
}

#[test]
fn null_does_not_fit_int() {
    let (null, new_c) = ([0; 4], [6, C, 0, 0]);
    refuses(&[[7, INT, 1, 0], null], 14, 1);
    refuses(&[[5, X, 1, 2], new_c, [4, X, M, 3], null], 14, 3);
    refuses(&[[5, X, 1, 2], new_c, [3, X, N, 3], null], 14, 3);
    accepts(&[[5, X, 1, 2], new_c, [3, X, U, 3], null], 0);
    // Nor as the innermost last part of a checked let, lock or fork; inferred it stays 12.
    refuses(&[[7, INT, 1, 0], [5, X, 2, 3], new_c, null], 14, 3);
    refuses(&[[7, INT, 1, 0], [5, X, 2, 3], new_c, [9, X, 4, 0], null], 14, 4);
    refuses(&[[7, INT, 1, 0], [8, 2, 3, 4], new_c, new_c, [5, X, 5, 6], new_c, null], 14, 6);
    refuses(&[[5, X, 1, 2], constant(1), null], 12, 2);
    let mut body = script(&[constant(1)]);
    body.nodes[1] = null;
    let place = body.place(Section::Nodes, 1);
    assert_eq!(check(&body.encode()), Reply { number: 14, place, ty: 0, silent: 0 });
}

#[test]
fn int_is_no_target() {
    let one = [[5, X, 1, 2], constant(1)];
    let with = |rest: &[[u16; 4]]| [&one[..], rest].concat();
    refuses(&with(&[[2, X, N, 0]]), 13, 2);
    // Before the argument or the part, and after 11.
    refuses(&with(&[[3, X, N, 3], [1, 9, 0, 0]]), 13, 2);
    refuses(&with(&[[4, X, M, 3], [1, 9, 0, 0]]), 13, 2);
    refuses(&with(&[[9, X, 3, 0], [1, 9, 0, 0]]), 13, 2);
    refuses(&with(&[[7, INT, 3, 0], [9, X, 4, 0], [0; 4]]), 13, 3);
    refuses(&with(&[[9, Y, 3, 0], [1, X, 0, 0]]), 11, 2);
    // "A lock target may have any type" otherwise, Unit too.
    accepts(&[[5, X, 1, 3], [7, 0, 2, 0], [0; 4], [9, X, 4, 0], constant(1)], INT);
}

#[test]
fn the_order_of_noes_at_a_sum() {
    let both = |one: [u16; 4], other: [u16; 4], rest: [u16; 4]| [[5, X, 1, 2], one, [5, Y, 3, 4], other, rest];
    let (number, object) = (constant(1), [6, C, 0, 0]);
    accepts(&both(number, number, [11, X, Y, 0]), INT);
    refuses(&both(object, number, [11, X, Y, 0]), 14, 4);
    refuses(&both(number, object, [11, X, Y, 0]), 14, 4);
    refuses(&both(object, object, [11, X, Y, 0]), 14, 4);
    refuses(&both(number, number, [11, X, 9, 0]), 11, 4);
    refuses(&both(number, number, [11, 9, X, 0]), 11, 4);
    // A bound variable of another type and an unbound one: 11.
    refuses(&both(object, number, [11, X, 9, 0]), 11, 4);
    refuses(&both(object, number, [11, 9, X, 0]), 11, 4);
    // The sum's own fault comes before fitting.
    let under_cast = [[5, X, 1, 2], object, [7, 0, 3, 0], [11, X, X, 0]];
    refuses(&under_cast, 14, 3);
    let unfit = [[5, X, 1, 2], number, [7, 0, 3, 0], [11, X, X, 0]];
    refuses(&unfit, 14, 3);
}

/// let x = 1 in let y = 1 in let z = 1 in fork{left}{right}; 1
#[test]
fn both_variables_of_a_sum_are_free() {
    let fork = |left: [u16; 4], right: [u16; 4]| {
        let one = constant(1);
        [[5, X, 1, 2], one, [5, Y, 3, 4], one, [5, Z, 5, 6], one, [8, 7, 8, 9], left, right, one]
    };
    accepts(&fork([11, X, Y, 0], [1, Z, 0, 0]), INT);
    accepts(&fork([11, X, X, 0], [11, Y, Z, 0]), INT);
    for (left, right) in [([11, X, Y, 0], [1, X, 0, 0]), ([11, X, Y, 0], [1, Y, 0, 0]), ([1, Z, 0, 0], [11, X, Z, 0])] {
        refuses(&fork(left, right), 15, 6);
    }
}

/// The program of Figure 10: Counter = 1, Cell = 2, Int = 3.
fn figure_ten() -> Script {
    let (init, add, get) = (2, 0, 1);
    let number = constant;
    let start = [
        [5, 2, 1, 2],
        [6, 2, 0, 0],
        [5, 3, 3, 5],
        [7, 1, 4, 0],
        [1, 2, 0, 0],
        [5, 4, 6, 8],
        [4, 2, init, 7],
        number(0),
        [8, 9, 12, 15],
        [9, 2, 10, 0],
        [4, 2, add, 11],
        number(1),
        [9, 3, 13, 0],
        [4, 3, add, 14],
        number(2),
        [4, 2, get, 16],
        number(0),
    ];
    let bodies =
        [[3, 0, 0, 18], [1, 1, 0, 0], [5, 2, 20, 21], [2, 0, 0, 0], [3, 0, 0, 22], [11, 2, 1, 0], [2, 0, 0, 0]];
    Script {
        interfaces: vec![[0, 2, 0]],
        signatures: vec![[add, 3, 0], [get, 3, 3]],
        classes: vec![[1, 1, 3]],
        fields: vec![[0, 3]],
        methods: vec![[init, 3, 0, 17], [add, 3, 0, 19], [get, 3, 3, 23]],
        nodes: [&start[..], &bodies].concat(),
    }
}

/// Runs to the end; each choice is one of the positions that can move.
fn played(program: &Program, mut choose: impl FnMut(&[u8]) -> u8) -> (Stop, usize, State) {
    let mut machine = Machine { program, state: State::initial() };
    let mut moves = 0;
    loop {
        let able: Vec<u8> = (0..).zip(machine.offer()).filter(|(_, able)| *able).map(|(at, _)| at).collect();
        if able.is_empty() {
            return (machine.run(&[]).stop, moves, machine.state);
        }
        assert_eq!(machine.step(choose(&able)), Ok(()));
        assert_eq!(state_of(program, &block::write(&machine.state)).as_ref(), Ok(&machine.state));
        moves += 1;
    }
}

#[test]
fn figure_ten_gives_three() {
    let program = program(&figure_ten());
    assert_eq!(program.start_type, 3);
    let gives_three = |(stop, moves, state): (Stop, usize, State)| {
        assert_eq!((stop, moves), (Stop::Finished, 44));
        assert_eq!(state.tree, Tree::new(Focus::Value(Value::Number(3))));
        assert_eq!(state.objects, [Object { class: 2, shut: false, fields: vec![Value::Number(3)] }]);
    };
    gives_three(played(&program, |able| able[0]));
    gives_three(played(&program, |able| able[able.len() - 1]));
    let mut rng = Rng::new(10);
    for _ in 0..200 {
        gives_three(played(&program, |able| able[rng.below(able.len())]));
    }
}

/// The same cell without locks: some schedules lose a number, none gives another.
#[test]
fn without_locks_numbers_are_lost() {
    let mut script = figure_ten();
    // A cast to Unit, of what add gives, in place of each lock.
    (script.nodes[9], script.nodes[12]) = ([7, 0, 10, 0], [7, 0, 13, 0]);
    let program = program(&script);
    let mut rng = Rng::new(11);
    let mut seen = [0; 4];
    for _ in 0..200 {
        let (stop, _, state) = played(&program, |able| able[rng.below(able.len())]);
        let Focus::Value(Value::Number(number)) = state.tree.focus else { panic!("{:?}", state.tree.focus) };
        assert_eq!(stop, Stop::Finished);
        seen[number as usize] += 1;
    }
    assert!(seen[0] == 0 && seen[1..].iter().all(|&count| count > 0), "{seen:?}");
}

/// Offer's number for a block whose only thread has this value, with a script of this start.
fn at_root(start: &[[u16; 4]], value: Value) -> u16 {
    let state = State { tree: Tree::new(Focus::Value(value)), ..State::initial() };
    lend(&script(start), &block::write(&state))
}

fn lend(script: &Script, lent: &[u8]) -> u16 {
    offer(&script.encode(), lent, &mut [0; FLAGS]).number
}

#[test]
fn values_in_a_block() {
    let (int, unit) = ([constant(1)], [[7, 0, 1, 0], [0; 4]]);
    assert_eq!([Value::Number(7), Value::Null].map(|value| at_root(&int, value)), [0, 27]);
    assert_eq!([Value::Number(7), Value::Null].map(|value| at_root(&unit, value)), [27, 0]);
    let script = script(&int);
    // The position's value stands at byte 37,902.
    for (words, number) in [
        ([2, 0, 0], 0),
        ([2, 65_535, 65_535], 0),
        ([2, 0, 32_768], 0),
        ([0, 0, 0], 27), // null at Int
        ([1, 0, 0], 27), // an object that is not there
        ([0, 1, 0], 27),
        ([0, 0, 1], 27),
        ([1, 0, 1], 27),
        ([3, 0, 0], 27),
        ([65_535, 0, 0], 27),
    ] {
        let mut lent = block::write(&State { tree: Tree::new(Focus::Value(Value::Number(0))), ..State::initial() });
        for (at, word) in (37_902..).step_by(2).zip(words) {
            lent[at..at + 2].copy_from_slice(&u16::to_le_bytes(word));
        }
        assert_eq!(lend(&script, &lent), number, "{words:?}");
    }
}

#[test]
fn the_layout() {
    let fields = vec![Value::Number(0x0002_0001), Value::Null, Value::Object(0)];
    let state = State {
        objects: vec![Object { class: C, shut: false, fields }],
        bindings: vec![Binding { name: X, ty: INT, value: Value::Number(-2), beneath: None }],
        tree: Tree {
            frames: vec![Frame::Cast { node: 0 }],
            focus: Focus::Node(Closure { node: 1, environment: Some(0) }),
        },
    };
    let lent = block::write(&state);
    let words: Vec<(usize, u16)> = lent
        .chunks_exact(2)
        .enumerate()
        .map(|(index, pair)| (2 * index, u16::from_le_bytes([pair[0], pair[1]])))
        .filter(|(_, word)| *word != 0)
        .collect();
    let header = [(0, 1), (2, 1), (4, 1), (6, 1)];
    let object = [(8, C), (12, 2), (14, 1), (16, 2), (24, 1)];
    let binding = [(13_320, X), (13_322, INT), (13_324, 2), (13_326, 65_534), (13_328, 65_535)];
    let position = [(37_896, 1), (37_898, 1), (37_900, 1), (37_908, 1)];
    let frame = [(38_778, 2)];
    assert_eq!(words, [&header[..], &object, &binding, &position, &frame].concat());
    assert_eq!(lend(&script(&[[7, INT, 1, 0], constant(1)]), &lent), 0);
    assert_eq!((lent.len(), block::Area::Frames.bytes().end), (65_536, 51_066));
}

/// An object of class C beside bindings and frames that hold numbers, or should.
#[test]
fn numbers_fit_int_alone() {
    // let x = new C in fork{x.n = 1}{2}; (Int)3
    let nodes =
        [[5, X, 1, 2], [6, C, 0, 0], [8, 3, 5, 6], [3, X, N, 4], constant(1), constant(2), [7, INT, 7, 0], constant(3)];
    let program_script = script(&nodes);
    let answer = |change: &dyn Fn(&mut State)| {
        let at = |node: u16| Closure { node, environment: Some(0) };
        let sides = [3, 5].map(|node| Tree::new(Focus::Node(at(node))));
        let mut state = State {
            objects: vec![Object { class: C, shut: false, fields: vec![Value::Number(0), Value::Null, Value::Null] }],
            bindings: vec![Binding { name: X, ty: C, value: Value::Object(0), beneath: None }],
            tree: Tree::new(Focus::Join { last: at(6), sides: Box::new(sides) }),
        };
        change(&mut state);
        lend(&program_script, &block::write(&state))
    };
    assert_eq!(answer(&|_| {}), 0);
    let field = |index: usize, value: Value| answer(&|state| state.objects[0].fields[index] = value);
    let (null, number, object) = (Value::Null, Value::Number(9), Value::Object(0));
    assert_eq!([null, number, object].map(|value| field(0, value)), [21, 0, 21]); // Int
    assert_eq!([null, number, object].map(|value| field(1, value)), [0, 21, 21]); // Unit
    assert_eq!([null, number, object].map(|value| field(2, value)), [0, 21, 0]); // I
    let binds =
        |ty: u16, value: Value| answer(&|state| state.bindings.push(Binding { name: Y, ty, value, beneath: Some(0) }));
    assert_eq!([null, number, object].map(|value| binds(INT, value)), [26, 0, 26]);
    assert_eq!([null, number, object].map(|value| binds(C, value)), [0, 26, 0]);
    let side = |focus: Focus| answer(&|state| state.tree.position_mut(1).expect("the left side").focus = focus.clone());
    assert_eq!([null, number, object].map(|value| side(Focus::Value(value))), [0, 0, 0]); // anything at an async
    let waits = |frame: Frame, value: Value| {
        answer(&|state| {
            *state.tree.position_mut(1).expect("the left side") =
                Tree { frames: vec![frame], focus: Focus::Value(value) };
        })
    };
    let write = Frame::Waiting(Closure { node: 3, environment: Some(0) });
    assert_eq!([null, number, object].map(|value| waits(write, value)), [27, 0, 27]);
    let cast = Frame::Cast { node: 6 };
    assert_eq!([null, number, object].map(|value| waits(cast, value)), [27, 0, 27]);
}
