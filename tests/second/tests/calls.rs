//! Start, Offer and Run on lent buffers: refusals in order, buffers untouched by them, stops.

use second::block;
use second::directed::sized;
use second::script::Script;
use second::{offer, run, start, Answer, RunReply, FLAGS, MOST_CHOICES};

fn unit_null() -> Script {
    Script { nodes: vec![[7, 0, 1, 0], [0; 4]], ..Script::default() }
}

fn started(script: &Script) -> Vec<u8> {
    let mut lent = vec![0xAA; block::LENGTH];
    assert_eq!(start(&script.encode(), &mut lent), Answer { number: 0, place: 0 });
    lent
}

fn refused(number: u16, place: u16) -> RunReply {
    RunReply { number, place, stop: 0, read: 0, moves: 0 }
}

/// "Byte 6 is 1, byte 37,896 is 1, and the other 65,534 bytes are 0."
#[test]
fn the_block_that_start_writes() {
    let mut wanted = vec![0; 65_536];
    (wanted[6], wanted[37_896]) = (1, 1);
    assert!(started(&unit_null()) == wanted);
}

#[test]
fn questions_come_in_order() {
    let (good, mut bad) = (unit_null().encode(), unit_null().encode());
    bad[24] = 0; // the start is null, with a word that should be 0
                 // An unused byte in no part, in the bindings' too, and in the objects' too.
    let mut faulty = [(); 3].map(|_| started(&unit_null()));
    faulty.iter_mut().for_each(|lent| lent[65_535] = 1);
    faulty[1..].iter_mut().for_each(|lent| lent[37_895] = 1);
    faulty[2][13_319] = 1;
    let (short, long) = (vec![3; block::LENGTH - 1], vec![3; block::LENGTH + 1]);
    let before_numbers = vec![0; 49_152];
    // A refused script comes first, then the block's length, the other buffer's, and the block's three parts.
    for (script, lent, fits, number, place) in [
        (&bad, &short, false, 7, 24),
        (&good, &short, false, 20, 0),
        (&good, &long, true, 20, 0),
        (&good, &before_numbers, true, 20, 0),
        (&good, &faulty[2], false, 22, 0),
        (&good, &faulty[2], true, 21, 0),
        (&good, &faulty[1], true, 26, 0),
        (&good, &faulty[0], true, 27, 0),
    ] {
        let mut ran = lent.clone();
        let choices = vec![0; if fits { MOST_CHOICES } else { MOST_CHOICES + 1 }];
        assert_eq!(run(script, &mut ran, &choices), refused(number, place));
        assert!(ran == *lent);
        for length in if fits { vec![FLAGS] } else { vec![0, FLAGS - 1, FLAGS + 1] } {
            let mut flags = vec![9; length];
            assert_eq!(offer(script, lent, &mut flags), Answer { number, place });
            assert!(flags == vec![9; length]);
        }
        let mut over = lent.clone();
        let number_of_start = if number > 20 { 0 } else { number };
        assert_eq!(start(script, &mut over), Answer { number: number_of_start, place });
        assert!(number_of_start == 0 || over == *lent);
    }
}

#[test]
fn a_run_is_split_where_its_choices_are() {
    let script = unit_null();
    let mut lent = started(&script);
    let one_each = [0, 0, 0, 0].map(|choice| run(&script.encode(), &mut lent, &[choice]));
    assert_eq!(
        one_each.map(|reply| (reply.stop, reply.read, reply.moves)),
        [(0, 1, 1), (0, 1, 1), (1, 1, 1), (1, 0, 0)]
    );
}

/// The longest way down, 1,023 casts to a null, is 1,024 silent moves; then each cast vanishes.
#[test]
fn silent_moves_in_a_row() {
    let script = sized([0, 0, 0, 0, 0, 1024]);
    let mut lent = started(&script);
    let reply = run(&script.encode(), &mut lent, &[0; MOST_CHOICES]);
    assert_eq!((reply.stop, reply.read, reply.moves), (1, 2047, 2047));
}

/// I = 1 with m from Unit to Unit, C = 2 of I with method m, whose body these nodes are from
/// number 5 on; the start is let x = new C in x.m(null), so that `this` is C in the body.
fn calling(body: &[[u16; 4]]) -> Script {
    let start = [[5, 2, 1, 2], [6, 2, 0, 0], [4, 2, 10, 3], [7, 0, 4, 0], [0; 4]];
    Script {
        interfaces: vec![[0, 1, 0]],
        signatures: vec![[10, 0, 0]],
        classes: vec![[1, 0, 1]],
        methods: vec![[10, 0, 0, 5]],
        nodes: [&start, body].concat(),
        ..Script::default()
    }
}

/// Chooses position `choice` until the Run stops.
fn run_on(script: &Script, choice: u8) -> (u16, Vec<u8>) {
    let (file, mut lent) = (script.encode(), started(script));
    loop {
        let reply = run(&file, &mut lent, &[choice; MOST_CHOICES]);
        assert_eq!(reply.number, 0);
        if reply.stop != 0 {
            return (reply.stop, lent);
        }
    }
}

fn counts(lent: &[u8]) -> [u16; 4] {
    [0, 2, 4, 6].map(|at| u16::from_le_bytes([lent[at], lent[at + 1]]))
}

#[test]
fn stores_fill_up() {
    // this.m(x): bindings fill up, two at a time, after one for the start's let.
    let (stop, lent) = run_on(&calling(&[[4, 0, 10, 6], [1, 1, 0, 0]]), 0);
    assert_eq!((stop, counts(&lent)), (5, [1, 2047, 1, 1]));
    // let y = this.m(x) in y: two bindings and a frame a call, and the call that waits.
    let (stop, lent) = run_on(&calling(&[[5, 2, 6, 8], [4, 0, 10, 7], [1, 1, 0, 0], [1, 2, 0, 0]]), 0);
    assert_eq!((stop, counts(&lent)), (5, [1, 2047, 1024, 1]));
    // let y = this in let z = this in this.m(x): four a call, and the last place is used.
    let lets = [[5, 2, 6, 7], [1, 0, 0, 0], [5, 3, 8, 9], [1, 0, 0, 0], [4, 0, 10, 10], [1, 1, 0, 0]];
    let (stop, lent) = run_on(&calling(&lets), 0);
    assert_eq!((stop, counts(&lent)), (5, [1, 2048, 1, 1]));
    // Three casts of a call: frames fill up first.
    let casts = [[7, 0, 6, 0], [7, 0, 7, 0], [7, 0, 8, 0], [4, 0, 10, 9], [1, 1, 0, 0]];
    let (stop, lent) = run_on(&calling(&casts), 0);
    assert_eq!((stop, counts(&lent)[2]), (6, 2048));
    // let y = new C in this.m(x): an object, three bindings.
    let (stop, lent) = run_on(&calling(&[[5, 2, 6, 7], [6, 2, 0, 0], [4, 0, 10, 8], [1, 1, 0, 0]]), 0);
    assert_eq!((stop, counts(&lent)[0]), (4, 256));
    // Forks in forks, each in the left async.
    let depth = 40;
    let forks = (0..depth).map(|index| [8, 3 * index + 3, 3 * index + 1, 3 * index + 2]);
    let nodes = forks.flat_map(|fork| [fork, [6, 2, 0, 0], [6, 2, 0, 0]]).chain([[6, 2, 0, 0]]);
    let script =
        Script { interfaces: vec![[0, 0, 0]], classes: vec![[1, 0, 0]], nodes: nodes.collect(), ..Script::default() };
    let (file, mut lent) = (script.encode(), started(&script));
    let reply = run(&file, &mut lent, &(0..=255).collect::<Vec<u8>>());
    assert_eq!((reply.stop, reply.read, reply.moves, counts(&lent)), (7, 32, 31, [0, 0, 0, 63]));
}
