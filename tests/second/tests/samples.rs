//! The samples of document 01: what Check says of them, with the most silent moves in a row counted by hand, and how those
//! that are accepted run.

use second::block;
use second::program::Program;
use second::script::{Script, Section};
use second::state::{Focus, State, Value};
use second::wellformed::state_of;
use second::{check, offer, run, start, Answer, Reply, RunReply, FLAGS};

const I: u16 = 1;
const C: u16 = 2;
const X: u16 = 2;
const Y: u16 = 3;

/// I is an empty list interface, C a class of it.
fn of_nodes(nodes: &[[u16; 4]]) -> Script {
    Script { interfaces: vec![[0, 0, 0]], classes: vec![[I, 0, 0]], nodes: nodes.to_vec(), ..Script::default() }
}

fn accepts(nodes: &[[u16; 4]], ty: u16, silent: u16) {
    assert_eq!(check(&of_nodes(nodes).encode()), Reply { number: 0, place: 0, ty, silent });
}

fn refuses(nodes: &[[u16; 4]], number: u16, node: usize) {
    let script = of_nodes(nodes);
    let place = script.place(Section::Nodes, node);
    assert_eq!(check(&script.encode()), Reply { number, place, ty: 0, silent: 0 });
}

/// What a Run from the start gives, and the state that it leaves.
fn runs(script: &Script, choices: &[u8]) -> (RunReply, State) {
    let (file, mut lent) = (script.encode(), vec![0xAA; block::LENGTH]);
    assert_eq!(start(&file, &mut lent), Answer { number: 0, place: 0 });
    let reply = run(&file, &mut lent, choices);
    (reply, state(&file, &lent))
}

fn state(file: &[u8], lent: &[u8]) -> State {
    let Ok(program) = Program::read(file) else { unreachable!("accepted scripts can be read") };
    state_of(&program, lent).expect("Run leaves a well-formed block")
}

/// A Run that is not refused.
fn ran(stop: u16, read: u16, moves: u16) -> RunReply {
    RunReply { number: 0, place: 0, stop, read, moves }
}

const FINISHED: u16 = 1;
const FAILED: u16 = 2;
const STUCK: u16 = 3;
const OBJECTS_FULL: u16 = 4;

#[test]
fn forty_bytes() {
    let mut file = vec![];
    for word in [24, 0, 24, 0, 24, 0, 24, 0, 24, 0, 24, 2, 7, 0, 1, 0, 0, 0, 0, 0u16] {
        file.extend(word.to_le_bytes());
    }
    assert_eq!(file.len(), 40);
    assert_eq!(check(&file), Reply { number: 0, place: 0, ty: 0, silent: 2 });
    let script = Script { nodes: vec![[7, 0, 1, 0], [0; 4]], ..Script::default() };
    assert_eq!(file, script.encode());
    assert_eq!(runs(&script, &[0; 3]).0, ran(FINISHED, 3, 3));
    assert_eq!(runs(&script, &[0; 2]).0, ran(0, 2, 2));
    assert_eq!(runs(&script, &[]).0, ran(0, 0, 0));
    // "Otherwise 0": what is chosen after the end is not read, what is passed over is.
    assert_eq!(runs(&script, &[0; 9]).0, ran(FINISHED, 3, 3));
    assert_eq!(runs(&script, &[1, 0, 255, 0, 0, 0]).0, ran(FINISHED, 5, 3));
}

#[test]
fn start_null() {
    let script = Script { nodes: vec![[0; 4]], ..Script::default() };
    assert_eq!(check(&script.encode()), Reply { number: 12, place: 24, ty: 0, silent: 0 });
}

#[test]
fn new_of_an_interface() {
    refuses(&[[6, I, 0, 0]], 6, 0);
    let script = Script { nodes: vec![[6, 1, 0, 0]], ..Script::default() };
    assert_eq!(check(&script.encode()), Reply { number: 6, place: 24, ty: 0, silent: 0 });
}

#[test]
fn downcast() {
    // let x = new C in let y = (I)x in (C)y
    let nodes = [[5, X, 1, 2], [6, C, 0, 0], [5, Y, 3, 5], [7, I, 4, 0], [1, X, 0, 0], [7, C, 6, 0], [1, Y, 0, 0]];
    refuses(&nodes, 14, 6);
}

#[test]
fn shared_fork() {
    // let x = new C in fork{x}{x}; x
    let nodes = [[5, X, 1, 2], [6, C, 0, 0], [8, 3, 4, 5], [1, X, 0, 0], [1, X, 0, 0], [1, X, 0, 0]];
    refuses(&nodes, 15, 2);
}

#[test]
fn nested_locks() {
    // let x = new C in lock x in lock x in x
    let nodes = [[5, X, 1, 2], [6, C, 0, 0], [9, X, 3, 0], [9, X, 4, 0], [1, X, 0, 0]];
    accepts(&nodes, C, 1);
    let shut_after = |moves: usize| runs(&of_nodes(&nodes), &vec![0; moves]).1.objects[0].shut;
    assert_eq!([3, 4, 5, 6, 7].map(shut_after), [false, true, true, true, false]);
    let (reply, state) = runs(&of_nodes(&nodes), &[0; 7]);
    assert_eq!(reply, ran(FINISHED, 7, 7));
    assert_eq!(state.tree.focus, Focus::Value(Value::Object(0)));
}

#[test]
fn null_lock() {
    // let x = (C)null in lock x in x
    let nodes = [[5, X, 1, 3], [7, C, 2, 0], [0; 4], [9, X, 4, 0], [1, X, 0, 0]];
    accepts(&nodes, C, 3);
    assert_eq!(runs(&of_nodes(&nodes), &[0; 5]).0, ran(0, 5, 5));
    let (reply, state) = runs(&of_nodes(&nodes), &[0; 10]);
    assert_eq!(reply, ran(FAILED, 6, 6));
    assert!(state.tree.is_failed() && state.tree.frames.is_empty());
}

#[test]
fn locked_fork() {
    // let x = new C in lock x in fork{(Unit)null}{lock x in x}; x
    let nodes = [
        [5, X, 1, 2],
        [6, C, 0, 0],
        [9, X, 3, 0],
        [8, 4, 6, 8],
        [7, 0, 5, 0],
        [0; 4],
        [9, X, 7, 0],
        [1, X, 0, 0],
        [1, X, 0, 0],
    ];
    accepts(&nodes, C, 2);
    assert_eq!(runs(&of_nodes(&nodes), &[0, 0, 0, 0, 0, 1, 1, 1]).0, ran(STUCK, 8, 8));
    // The right async has none of its parent's locks: it never moves.
    assert_eq!(runs(&of_nodes(&nodes), &[0, 0, 0, 0, 0, 2, 2, 1, 2, 1, 1, 2]).0, ran(STUCK, 11, 8));
}

#[test]
fn alias() {
    // let x = new C in let y = x in fork{lock x in x}{lock y in y}; x
    let lock = |variable, body| [[9, variable, body, 0], [1, variable, 0, 0]];
    let [lock_x, x] = lock(X, 6);
    let [lock_y, y] = lock(Y, 8);
    let nodes =
        [[5, X, 1, 2], [6, C, 0, 0], [5, Y, 3, 4], [1, X, 0, 0], [8, 5, 7, 9], lock_x, x, lock_y, y, [1, X, 0, 0]];
    accepts(&nodes, C, 1);
    let script = of_nodes(&nodes);
    let flags_after = |choices: &[u8]| {
        let (file, mut flags) = (script.encode(), [7; FLAGS]);
        let lent = block::write(&runs(&script, choices).1);
        assert_eq!(offer(&file, &lent, &mut flags), Answer { number: 0, place: 0 });
        assert!(flags[3..].iter().all(|&flag| flag == 0));
        [flags[0], flags[1], flags[2]]
    };
    let forked = [0; 7];
    assert_eq!(flags_after(&forked), [0, 1, 1]);
    // Each waits while the other holds, and goes on when the other has opened.
    for (one, both) in [(1, [0, 1, 0]), (2, [0, 0, 1])] {
        let choices = |more: usize| [&forked[..], &vec![one; more]].concat();
        assert_eq!([1, 2].map(|more| flags_after(&choices(more))), [both, both]);
        let mut other_only = [0, 1, 1];
        other_only[one as usize] = 0;
        assert_eq!(flags_after(&choices(3)), other_only);
    }
    let whole = [&forked[..], &[2, 1, 2, 1, 2, 1, 1, 1, 0, 0]].concat();
    assert_eq!(runs(&script, &whole).0, ran(FINISHED, 17, 15));
}

#[test]
fn write_to_null() {
    // let x = (C)null in x.f = new C, with a field f of type I
    let script = Script {
        classes: vec![[I, 1, 0]],
        fields: vec![[7, I]],
        ..of_nodes(&[[5, X, 1, 3], [7, C, 2, 0], [0; 4], [3, X, 7, 4], [6, C, 0, 0]])
    };
    assert_eq!(check(&script.encode()), Reply { number: 0, place: 0, ty: 0, silent: 3 });
    let (reply, state) = runs(&script, &[0; 20]);
    assert_eq!(reply, ran(FAILED, 8, 8));
    assert_eq!(state.objects.len(), 1);
    // At the move before, the object was there and the thread had not failed.
    let (reply, state) = runs(&script, &[0; 7]);
    assert_eq!((reply, state.objects.len()), (ran(0, 7, 7), 1));
}

#[test]
fn the_257th_object() {
    // let x = new C in ... 256 times: the last is the 257th object if there are 257 lets.
    let news = |count: u16| -> Script {
        let lets = (0..count).flat_map(|index| [[5, X, 2 * index + 1, 2 * index + 2], [6, C, 0, 0]]);
        of_nodes(&lets.chain([[1, X, 0, 0]]).collect::<Vec<_>>())
    };
    let (reply, state) = runs(&news(256), &[0; 4096]);
    assert_eq!((reply, state.objects.len()), (ran(FINISHED, 769, 769), 256));
    let (reply, state) = runs(&news(257), &[0; 4096]);
    assert_eq!((reply, state.objects.len()), (ran(OBJECTS_FULL, 770, 769), 256));
}

#[test]
fn sixty_three_joins() {
    let mut script = of_nodes(&[[7, 1, 1, 0], [6, 65, 0, 0]]);
    script.interfaces.extend((1..64).map(|predecessor| [1, predecessor, predecessor]));
    script.classes[0][0] = 64;
    assert_eq!(check(&script.encode()), Reply { number: 0, place: 0, ty: 1, silent: 1 });
    // Not below Unit, which no chain meets: every chain has been walked.
    script.nodes[0][1] = 0;
    assert_eq!(check(&script.encode()), Reply { number: 14, place: 422, ty: 0, silent: 0 });
}
