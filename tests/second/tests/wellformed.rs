//! Questions 21, 26 and 27 on states and blocks made by hand: what Figure 7 asks, what it does not, and which part of the
//! block is named.

use second::script::Script;
use second::state::{Binding, Closure, Focus, Frame, Object, State, Tree, Value};
use second::{block, offer, FLAGS};

const I: u16 = 1;
const C: u16 = 2;
const D: u16 = 3;
const INT: u16 = 4;
const X: u16 = 2;
/// Nodes of the script.
const FORK: u16 = 3;
const CAST_TO_UNIT: u16 = 4;
const NULL: u16 = 5;
const LOCK: u16 = 6;
const WRITE: u16 = 8;
const LET: u16 = 10;
const CALL: u16 = 13;
const CAST_TO_I: u16 = 15;
const LET_TO_NULL: u16 = 17;
const LOCK_TO_NULL: u16 = 19;
/// As many as there are.
const NODES: u16 = 21;

/// I = 1 with m from C to I; C = 2 of I with m and a field 7: D; D = 3 of I with m and no field; Int = 4.
/// The start is let x = new C in lock x in fork{(Unit)null}{lock x in x}; x.f = let y = new D in y.
fn script() -> Script {
    let start = [
        [5, X, 1, 2],
        [6, C, 0, 0],
        [9, X, FORK, 0],
        [8, CAST_TO_UNIT, LOCK, WRITE],
        [7, 0, NULL, 0],
        [0; 4],
        [9, X, 7, 0],
        [1, X, 0, 0],
        [3, X, 7, 9],
        [5, 3, 11, 12],
    ];
    // C's m is let y = new D in this.m(null), with the let at node 10; D's is (I)let z = new D in lock z in null.
    let (let_in_c, cast_in_d) = ([5, 3, 16, CALL], [7, I, LET_TO_NULL, 0]);
    let to_null = [[5, 4, 18, LOCK_TO_NULL], [6, D, 0, 0], [9, 4, 20, 0], [0; 4]];
    let rest = [let_in_c, [6, D, 0, 0], [1, 3, 0, 0], [4, 0, 10, 14], [0; 4], cast_in_d, [6, D, 0, 0]];
    Script {
        interfaces: vec![[0, 1, 0]],
        signatures: vec![[10, C, I]],
        classes: vec![[I, 1, 1], [I, 0, 1]],
        fields: vec![[7, D]],
        methods: vec![[10, C, I, LET], [10, C, I, CAST_TO_I]],
        nodes: [&start[..], &rest, &to_null].concat(),
    }
}

fn object(class: u16, shut: bool) -> Object {
    Object { class, shut, fields: vec![Value::Null; if class == C { 1 } else { 0 }] }
}

fn at(node: u16, environment: Option<u16>) -> Closure {
    Closure { node, environment }
}

fn thread(node: u16, environment: Option<u16>) -> Tree {
    Tree::new(Focus::Node(at(node, environment)))
}

/// After the fork: x is object 0, a C, shut by the root join's frame; object 1 is a D.
fn forked() -> State {
    let sides = [thread(CAST_TO_UNIT, Some(0)), thread(LOCK, Some(0))];
    State {
        objects: vec![object(C, true), object(D, false)],
        bindings: vec![Binding { name: X, ty: C, value: Value::Object(0), beneath: None }],
        tree: Tree {
            frames: vec![Frame::Lock { object: 0 }],
            focus: Focus::Join { last: at(WRITE, Some(0)), sides: Box::new(sides) },
        },
    }
}

/// Offer's number for the state with a change.
fn answer<R>(change: impl Fn(&mut State) -> R) -> u16 {
    let mut state = forked();
    change(&mut state);
    lend(&block::write(&state))
}

/// Offer's number for the block of the state with these words at these bytes.
fn with_words(words: &[(usize, u16)]) -> u16 {
    let mut block = block::write(&forked());
    for (at, word) in words {
        block[*at..at + 2].copy_from_slice(&word.to_le_bytes());
    }
    lend(&block)
}

fn lend(block: &[u8]) -> u16 {
    let answer = offer(&script().encode(), block, &mut [0; FLAGS]);
    assert_eq!(answer.place, 0);
    answer.number
}

fn side(state: &mut State, number: usize) -> &mut Tree {
    state.tree.position_mut(1 + number).expect("both sides are threads")
}

fn bind(state: &mut State, name: u16, ty: u16, value: Value, beneath: Option<u16>) -> Option<u16> {
    state.bindings.push(Binding { name, ty, value, beneath });
    Some(state.bindings.len() as u16 - 1)
}

#[test]
fn values() {
    assert_eq!(answer(|_| {}), 0);
    let holds = |value| answer(|state| state.objects[0].fields[0] = value);
    assert_eq!([1, 0, 2].map(|object| holds(Value::Object(object))), [0, 21, 21]);
    assert_eq!([holds(Value::Null), holds(Value::Number(0))], [0, 21]);
    let binds = |name, ty, value| answer(|state| bind(state, name, ty, value, Some(0)));
    assert_eq!([binds(60_000, I, Value::Object(1)), binds(0, C, Value::Object(0)), binds(1, D, Value::Null)], [0; 3]);
    assert_eq!([binds(X, 0, Value::Null), binds(X, 0, Value::Object(0)), binds(X, C, Value::Object(1))], [0, 26, 26]);
    assert_eq!([binds(X, INT + 1, Value::Null), binds(X, I, Value::Object(2))], [26, 26]);
}

#[test]
fn links() {
    let links = |beneath| answer(|state| bind(state, X, C, Value::Null, beneath));
    assert_eq!([None, Some(0), Some(1), Some(2)].map(links), [0, 0, 26, 26]);
    assert_eq!(answer(|state| state.bindings[0].beneath = Some(0)), 26);
    let stands = |number, node, environment| answer(|state| *side(state, number) = thread(node, environment));
    assert_eq!([Some(1), None].map(|environment| stands(0, CAST_TO_UNIT, environment)), [27, 0]);
    assert_eq!(stands(1, LOCK, None), 27);
}

/// Which objects are shut is asked with the threads, and so are the lock frames.
#[test]
fn locks() {
    assert_eq!(answer(|state| state.objects[0].shut = false), 27);
    assert_eq!(answer(|state| state.objects[1].shut = true), 27);
    let locks = |object| answer(|state| state.tree.frames.push(Frame::Lock { object }));
    assert_eq!([0, 1, 2].map(locks), [27; 3]);
    assert_eq!(answer(|state| side(state, 1).frames.push(Frame::Lock { object: 0 })), 27);
    let hold_other = |state: &mut State| {
        state.objects[1].shut = true;
        side(state, 1).frames.push(Frame::Lock { object: 1 });
    };
    assert_eq!(answer(hold_other), 0);
}

/// "A failed thread holds nothing", and other objects may then be shut. Objects and bindings are asked as ever.
#[test]
fn failed_threads() {
    for failed in [0, 1] {
        let with_failed = |change: &dyn Fn(&mut State)| {
            answer(|state| {
                *side(state, failed) = Tree::new(Focus::Failed);
                change(state);
            })
        };
        assert_eq!(with_failed(&|_| {}), 0);
        assert_eq!(with_failed(&|state| state.objects[1].shut = true), 0);
        assert_eq!(with_failed(&|state| state.objects[0].shut = false), 27);
        assert_eq!(with_failed(&|state| state.objects[0].fields[0] = Value::Object(0)), 21);
        assert_eq!(with_failed(&|state| state.bindings[0].ty = D), 26);
    }
    assert_eq!(answer(|state| state.tree = Tree::new(Focus::Failed)), 0);
    assert_eq!(answer(|state| state.tree = Tree { frames: vec![Frame::Lock { object: 0 }], focus: Focus::Failed }), 27);
}

/// The start's type, Unit, is wanted at the root, and nothing in particular at an async.
#[test]
fn wanted_types() {
    let root = |focus: Focus| answer(|state| state.tree.focus = focus.clone());
    let left = |focus: Focus| answer(|state| side(state, 0).focus = focus.clone());
    let both = |focus: Focus| (root(focus.clone()), left(focus));
    assert_eq!(both(Focus::Value(Value::Null)), (0, 0));
    assert_eq!(both(Focus::Value(Value::Object(1))), (27, 0));
    assert_eq!(both(Focus::Value(Value::Object(2))), (27, 27));
    assert_eq!(both(Focus::Node(at(NULL, None))), (0, 0));
    assert_eq!(both(Focus::Node(at(CAST_TO_I, None))), (27, 0));
    assert_eq!(both(Focus::Node(at(CAST_TO_UNIT, None))), (0, 0));
    assert_eq!(both(Focus::Node(at(LET_TO_NULL, None))), (0, 0));
    assert_eq!(both(Focus::Node(at(LOCK_TO_NULL, None))), (27, 27)); // it needs z
    assert_eq!(both(Focus::Node(at(NODES, None))), (27, 27));
    let last = |node| {
        answer(|state| match &mut state.tree.focus {
            Focus::Join { last, .. } => *last = at(node, Some(0)),
            _ => unreachable!("the root is a join"),
        })
    };
    assert_eq!([WRITE, NULL, CAST_TO_UNIT, LET_TO_NULL].map(last), [0; 4]);
    assert_eq!([LOCK, CAST_TO_I, LOCK_TO_NULL].map(last), [27; 3]);
}

#[test]
fn frames() {
    // What the root and the left async say of a frame beneath a value.
    let both = |frame: Frame, value: Value| {
        let waiting = Tree { frames: vec![frame], focus: Focus::Value(value) };
        let at_root = |state: &mut State| (state.tree, state.objects[0].shut) = (waiting.clone(), false);
        (answer(at_root), answer(|state| *side(state, 0) = waiting.clone()))
    };
    let [null, c, d] = [Value::Null, Value::Object(0), Value::Object(1)];
    assert_eq!(both(Frame::Cast { node: CAST_TO_UNIT }, null), (0, 0));
    assert_eq!(both(Frame::Cast { node: CAST_TO_UNIT }, d), (27, 27));
    assert_eq!(both(Frame::Cast { node: CAST_TO_I }, d), (27, 0));
    assert_eq!(both(Frame::Cast { node: WRITE }, null), (27, 27));
    let waiting = |node, environment| Frame::Waiting(at(node, environment));
    assert_eq!(both(waiting(CAST_TO_UNIT, None), null), (27, 27));
    assert_eq!(both(waiting(WRITE, Some(0)), d), (0, 0));
    assert_eq!(both(waiting(WRITE, Some(0)), c), (27, 27));
    assert_eq!(both(waiting(WRITE, None), null), (27, 27));
    assert_eq!(both(waiting(WRITE, Some(1)), null), (27, 27));
    // What ends in null gives whatever is wanted; it waits for a D.
    assert_eq!(both(waiting(LET_TO_NULL, None), d), (0, 0));
    assert_eq!(both(waiting(LET_TO_NULL, None), c), (27, 27));
    // The let's first part is a D whatever the bindings; its body needs `this`.
    assert_eq!(both(waiting(LET, Some(0)), d), (27, 27));
    let under_this = |ty: u16, node: u16, value: Value| {
        answer(|state| {
            let environment = bind(state, 0, ty, Value::Null, None);
            *side(state, 0) = Tree { frames: vec![waiting(node, environment)], focus: Focus::Value(value) };
        })
    };
    assert_eq!([under_this(C, LET, d), under_this(I, LET, d)], [0, 0]);
    assert_eq!([under_this(C, LET, c), under_this(0, LET, null)], [27, 27]);
    assert_eq!([under_this(D, CALL, c), under_this(I, CALL, null), under_this(I, CALL, d)], [0, 0, 27]);
}

/// The bytes of object 0, of binding 0 and of what is behind the used records of each area.
const CLASS: usize = 8;
const SHUT: usize = 10;
const FIELD: usize = 12;
const NO_FIELD: usize = 18;
const OBJECT_2: usize = 8 + 2 * 52;
const NAME: usize = 13_320;
const TYPE: usize = 13_322;
const VALUE: usize = 13_324;
const LINK: usize = 13_330;
const BINDING_1: usize = 13_332;
const POSITION_3: usize = 37_896 + 3 * 14;
const FRAME_1: usize = 38_778 + 6;
const REST: usize = 51_066;

/// "A byte with no meaning counts with the part whose area holds it, else with 27."
#[test]
fn unused_words() {
    let filled = |at| with_words(&[(at, 1)]);
    assert_eq!([NO_FIELD, 58, OBJECT_2, 13_318].map(filled), [21; 4]);
    assert_eq!([BINDING_1 + 4, 37_894].map(filled), [26; 2]);
    assert_eq!([POSITION_3, 38_776, FRAME_1, 51_064, REST, 65_534].map(filled), [27; 6]);
    // Words without a meaning in a record in use: of a field's value, a binding's, a node's position, a lock frame.
    assert_eq!([FIELD + 2, VALUE + 4, 37_902, 38_782].map(filled), [21, 26, 27, 27]);
    // A name is any word.
    assert_eq!(with_words(&[(2, 2), (BINDING_1, 9)]), 0);
}

/// A count belongs to its part. One that is too small leaves a record where none is counted.
#[test]
fn counts() {
    let [objects, bindings, frames, positions] =
        [0, 2, 4, 6].map(|at| [0, 1, 2, 3, 4, 64, 257, 2_048, 2_049, 65_535].map(|count| with_words(&[(at, count)])));
    assert_eq!(objects, [21, 21, 0, 21, 21, 21, 21, 21, 21, 21]);
    // Zeros are a binding: `this` of type Unit, null and without a link.
    assert_eq!(bindings, [26, 0, 0, 0, 0, 0, 0, 0, 26, 26]);
    assert_eq!(frames, [27, 0, 27, 27, 27, 27, 27, 27, 27, 27]);
    assert_eq!(positions, [27, 27, 27, 0, 27, 27, 27, 27, 27, 27]);
}

/// "Objects": class, lock word and fields; an object whose class is no class is bad whatever its other words are.
#[test]
fn words_of_an_object() {
    let class = |class| with_words(&[(CLASS, class)]);
    // As a D it has no field, which fits its words, but x is a C.
    assert_eq!([0, I, D, INT, INT + 1, 258, 65_535].map(class), [21, 21, 26, 21, 21, 21, 21]);
    let no_class = |words: &[(usize, u16)]| with_words(&[words, &[(CLASS, INT)]].concat());
    assert_eq!([no_class(&[(FIELD, 9)]), no_class(&[(SHUT, 0)]), no_class(&[(SHUT, 2), (TYPE, 99)])], [21; 3]);
    let shut = |word| with_words(&[(SHUT, word)]);
    assert_eq!([0, 1, 2, 256, 257, 65_535].map(shut), [27, 0, 21, 21, 21, 21]);
    let field = |words: [u16; 3]| with_words(&[(FIELD, words[0]), (FIELD + 2, words[1]), (FIELD + 4, words[2])]);
    assert_eq!([[0, 0, 0], [1, 1, 0]].map(field), [0, 0]);
    assert_eq!([[1, 0, 0], [1, 2, 0], [1, 1, 1], [0, 1, 0], [0, 0, 1], [2, 0, 0], [3, 0, 0]].map(field), [21; 7]);
}

/// "Bindings": type, value and link. A name that is another may leave a node without its variable, which is the thread's.
#[test]
fn words_of_a_binding() {
    let ty = |ty| with_words(&[(TYPE, ty)]);
    // At I the join's last part, a write, finds no field; a D, a number or Unit the object is not; the last are no types.
    assert_eq!([C, I, D, 0, INT, INT + 1, 258, 65_535].map(ty), [0, 27, 26, 26, 26, 26, 26, 26]);
    let name = |name| with_words(&[(NAME, name)]);
    assert_eq!([X, 0, 3, 65_535].map(name), [0, 27, 27, 27]);
    let value = |words: [u16; 3]| with_words(&[(VALUE, words[0]), (VALUE + 2, words[1]), (VALUE + 4, words[2])]);
    assert_eq!([[0, 0, 0], [1, 0, 0]].map(value), [0, 0]);
    assert_eq!([[1, 1, 0], [1, 2, 0], [1, 0, 1], [0, 1, 0], [2, 0, 0], [3, 0, 0]].map(value), [26; 6]);
    assert_eq!([0, 1, 2, 65_535].map(|link| with_words(&[(LINK, link)])), [0, 26, 26, 26]);
}

/// Whatever else is bad, the earliest part is named: "each part assuming the earlier ones sound".
#[test]
fn the_earlier_part_is_named() {
    let (object, binding, thread) = ((SHUT, 2), (LINK, 1), (REST, 1));
    assert_eq!([object, binding, thread].map(|word| with_words(&[word])), [21, 26, 27]);
    assert_eq!([[object, binding], [object, thread], [binding, thread]].map(|words| with_words(&words)), [21, 21, 26]);
    assert_eq!(with_words(&[object, binding, thread]), 21);
    // Which objects are shut is asked last, though the word is an object's.
    assert_eq!([with_words(&[(SHUT, 0), binding]), with_words(&[(SHUT, 0), (FIELD, 3)])], [26, 21]);
    // Object 1 is gone, which the field does not know: that is the objects' fault. Without the field it is nobody's.
    let gone = [(0, 1), (60, 0)];
    assert_eq!([with_words(&gone), with_words(&[&gone[..], &[(FIELD, 1), (FIELD + 2, 1)]].concat())], [0, 21]);
    // Object 0 alone is gone: x and the lock frame name what is not there.
    let none = [(0, 0), (60, 0), (CLASS, 0), (SHUT, 0)];
    assert_eq!([with_words(&none), with_words(&[&none[..], &[(VALUE, 0)]].concat())], [26, 27]);
}

/// No object and no binding are sound stores, but there is no thread.
#[test]
fn a_block_of_zeros() {
    let zeros = vec![0; block::LENGTH];
    assert_eq!(lend(&zeros), 27);
    assert_eq!(lend(&vec![255; block::LENGTH]), 21);
    let filled = |at: usize| {
        let mut block = zeros.clone();
        block[at] = 1;
        lend(&block)
    };
    assert_eq!([0, 2, 4, 6].map(filled), [21, 27, 27, 27]);
    assert_eq!([CLASS, 13_319, NAME, 37_895, 37_896, 65_535].map(filled), [21, 21, 26, 26, 27, 27]);
}
