//! Request 6: silent moves in a row, from each node of small scripts by hand, at the limits, and beside runs.

use second::cases::{any_case, Origin};
use second::directed::{directed, sized};
use second::generate::Rng;
use second::machine::{Machine, Stop, Unmoved};
use second::program::Program;
use second::script::Script;
use second::state::Focus;
use second::wellformed::state_of;
use second::{check, silent, Reply, SilentReply};

const I: u16 = 1;
const C: u16 = 2;
const INT: u16 = 3;
const X: u16 = 2;
const Y: u16 = 3;
const M: u16 = 10;
const F: u16 = 20;

const NULL: [u16; 4] = [0; 4];
const ONE: [u16; 4] = [10, 1, 0, 0];
const NEW: [u16; 4] = [6, C, 0, 0];

/// I = 1 with m from I to I; C = 2 of I with a field f: I and m, whose body comes after the start's nodes; Int = 3.
fn script(start: &[[u16; 4]], body: &[[u16; 4]]) -> Script {
    Script {
        interfaces: vec![[0, 1, 0]],
        signatures: vec![[M, I, I]],
        classes: vec![[I, 1, 1]],
        fields: vec![[F, I]],
        methods: vec![[M, I, I, start.len() as u16]],
        nodes: [start, body].concat(),
    }
}

fn counted(count: u16) -> SilentReply {
    SilentReply { number: 0, place: 0, count }
}

/// The count at each node, and the most as Check says it.
fn counts(script: &Script) -> (Vec<u16>, u16) {
    let file = script.encode();
    let Reply { number, place, silent: most, .. } = check(&file);
    assert_eq!((number, place), (0, 0), "{:?}", script.nodes);
    let count = |node: u32| {
        let reply = silent(&file, node);
        assert_eq!(reply, counted(reply.count));
        reply.count
    };
    ((0..script.nodes.len() as u32).map(count).collect(), most)
}

/// Of a start, whose nodes have these counts; that of the body, a variable, is 0.
fn start_counts(start: &[[u16; 4]], wanted: &[u16], most: u16) {
    let script = script(start, &[[1, 1, 0, 0]]);
    assert_eq!(counts(&script), ([wanted, &[0]].concat(), most), "{start:?}");
}

#[test]
fn each_kind() {
    let (cast, variable) = (|part: u16| [7, I, part, 0], [1, X, 0, 0]);
    start_counts(&[ONE], &[1], 1);
    start_counts(&[NEW], &[0], 0);
    start_counts(&[cast(1), NULL], &[2, 1], 2);
    start_counts(&[[7, INT, 1, 0], ONE], &[2, 1], 2);
    start_counts(&[[5, X, 1, 2], ONE, [11, X, X, 0]], &[2, 1, 0], 2);
    // let x = new C in each of these
    let with_x = |rest: &[[u16; 4]]| [&[[5, X, 1, 2], NEW], rest].concat();
    start_counts(&with_x(&[variable]), &[1, 0, 0], 1);
    start_counts(&with_x(&[[2, X, F, 0]]), &[1, 0, 0], 1);
    start_counts(&with_x(&[[3, X, F, 3], NULL]), &[1, 0, 2, 1], 2);
    start_counts(&with_x(&[[3, X, F, 3], variable]), &[1, 0, 1, 0], 1);
    start_counts(&with_x(&[[4, X, M, 3], NULL]), &[1, 0, 2, 1], 2);
    start_counts(&with_x(&[[4, X, M, 3], [2, X, F, 0]]), &[1, 0, 1, 0], 1);
    start_counts(&with_x(&[[5, Y, 3, 4], [2, X, F, 0], [1, Y, 0, 0]]), &[1, 0, 1, 0, 0], 1);
    start_counts(&with_x(&[cast(3), cast(4), variable]), &[1, 0, 2, 1, 0], 2);
    // let y = (Unit) x.f = x.m(null) in y
    let chain = [[5, Y, 3, 7], [7, 0, 4, 0], [3, X, F, 5], [4, X, M, 6], NULL, [1, Y, 0, 0]];
    start_counts(&with_x(&chain), &[1, 0, 5, 4, 3, 2, 1, 0], 5);
}

/// What is entered by a published step counts from there on, and not before.
#[test]
fn parts_that_do_not_run_first() {
    let cast = |part: u16| [7, I, part, 0];
    // let x = new C in (I)(I)null
    start_counts(&[[5, X, 1, 2], NEW, cast(3), cast(4), NULL], &[1, 0, 3, 2, 1], 3);
    // let x = let y = 1 in (I)null in x
    start_counts(&[[5, X, 1, 5], [5, Y, 2, 3], ONE, cast(4), NULL, [1, X, 0, 0]], &[3, 2, 1, 2, 1, 0], 3);
    // fork{(I)null}{1}; (Int)1
    start_counts(&[[8, 1, 3, 4], cast(2), NULL, ONE, [7, INT, 5, 0], ONE], &[0, 2, 1, 1, 2, 1], 2);
    // (I)fork{1}{1}; null
    start_counts(&[cast(1), [8, 2, 3, 4], ONE, ONE, NULL], &[1, 0, 1, 1, 1], 1);
    // let x = new C in lock x in (I)null
    start_counts(&[[5, X, 1, 2], NEW, [9, X, 3, 0], cast(4), NULL], &[1, 0, 0, 2, 1], 2);
    // let x = new C in let y = (I)lock x in (I)null in y
    let locked = [[5, X, 1, 2], NEW, [5, Y, 3, 7], cast(4), [9, X, 5, 0], cast(6), NULL, [1, Y, 0, 0]];
    start_counts(&locked, &[1, 0, 2, 1, 0, 2, 1, 0], 2);
}

/// The most is "over all nodes of the script": nobody calls m, and its body has the longest row.
#[test]
fn a_body_that_is_never_entered() {
    let body = script(&[NEW], &[[7, I, 2, 0], [7, I, 3, 0], NULL]);
    assert_eq!(counts(&body), (vec![0, 3, 2, 1], 3));
}

#[test]
fn numbers_of_no_node() {
    let file = script(&[[7, INT, 1, 0], ONE], &[[7, I, 3, 0], NULL]).encode();
    assert_eq!([0, 1, 2, 3].map(|node| silent(&file, node)), [2, 1, 2, 1].map(counted));
    // Behind the last; and numbers whose low half is one of these.
    for node in [4, 5, 1_023, 1_024, 65_535, 65_536, 65_537, 65_538, 131_072, 1 << 31, u32::MAX - 1, u32::MAX] {
        assert_eq!(silent(&file, node), counted(0), "{node}");
    }
}

/// 1,023 casts and a null are 1,024 silent moves, and as many casts of a new are one fewer.
#[test]
fn the_longest_rows() {
    let mut casts = sized([0, 0, 0, 0, 0, 1024]);
    let down_from = |most: u16| (0..1024).map(|node| most - node).collect::<Vec<u16>>();
    assert_eq!(counts(&casts), (down_from(1_024), 1_024));
    for node in [1_024, 65_535, 65_536, 65_536 + 1_023, u32::MAX] {
        assert_eq!(silent(&casts.encode(), node), counted(0), "{node}");
    }
    casts.nodes.iter_mut().take(1_023).for_each(|node| node[1] = 1); // Int, in a script without other types
    casts.nodes[1_023] = ONE;
    assert_eq!(counts(&casts), (down_from(1_024), 1_024));
    (casts.interfaces, casts.classes) = (vec![[0; 3]], vec![[I, 0, 0]]);
    casts.nodes[1_023] = NEW;
    assert_eq!(counts(&casts), (down_from(1_023), 1_023));
}

/// "A refusal returns its number and place, with every other number 0", for a node that is not there too.
#[test]
fn refusals() {
    let mut rng = Rng::new(1);
    for number in (1..=15).flat_map(|number| [number; 20]) {
        let file = directed(number, &mut rng).script;
        let Reply { place, .. } = check(&file);
        for node in [0, 1, 1_023, 65_536, u32::MAX] {
            assert_eq!(silent(&file, node), SilentReply { number, place, count: 0 });
        }
    }
    assert_eq!(silent(&[], 0), SilentReply { number: 1, place: 0, count: 0 });
    let start_null = Script { nodes: vec![NULL], ..Script::default() }.encode();
    assert_eq!(silent(&start_null, 0), SilentReply { number: 12, place: 24, count: 0 });
}

/// The node at which a position is, if its kind is one of those that move silently.
fn silent_node(machine: &Machine, position: usize) -> Option<u16> {
    let positions = machine.state.tree.positions();
    let Focus::Node(at) = positions[position].tree.focus else { return None };
    let [kind, ..] = machine.program.script.nodes[at.node as usize];
    [0, 3, 4, 5, 7, 10].contains(&kind).then_some(at.node)
}

/// Moves a position as long as it moves silently: how often, and whether the frames were full then.
fn moved_alone(machine: &mut Machine, position: usize) -> (u16, bool) {
    let mut moves = 0;
    while silent_node(machine, position).is_some() {
        match machine.step(position as u8) {
            Ok(()) => moves += 1,
            Err(unmoved) => {
                assert_eq!(unmoved, Unmoved::Full(Stop::FramesFull));
                return (moves, true);
            }
        }
    }
    (moves, false)
}

/// Every running thread of random well-formed blocks makes as many silent moves as its node counts, unless frames are full.
#[test]
fn runs_make_so_many() {
    let mut rng = Rng::new(2);
    let (mut exact, mut longer, mut full) = (0, 0, 0);
    for _ in 0..6_000 {
        let case = any_case(&mut rng);
        if ![Origin::Reached, Origin::Made].contains(&case.origin) {
            continue;
        }
        let Ok(program) = Program::read(&case.script) else { unreachable!("these scripts are accepted") };
        let state = state_of(&program, &case.block).expect("these blocks are well formed");
        for (position, at) in state.tree.positions().iter().enumerate() {
            let Focus::Node(at) = at.tree.focus else { continue };
            let SilentReply { count, .. } = silent(&case.script, at.node.into());
            let mut machine = Machine { program: &program, state: state.clone() };
            let (moves, is_full) = moved_alone(&mut machine, position);
            assert!(if is_full { moves < count } else { moves == count }, "{moves} and {count} from node {}", at.node);
            exact += u32::from(!is_full);
            longer += u32::from(!is_full && count > 3);
            full += u32::from(is_full);
        }
    }
    assert!(exact > 5_000 && longer > 50 && full > 50, "{exact} {longer} {full}");
}
