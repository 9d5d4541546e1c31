//! What is timed of a call, with the bytes that it is lent. Both implementations must give the same reply and leave the same bytes.

use crate::timing::{alone, race, Times};
use second::block;
use second::script::{Script, LIMITS};
use second::state::State;
use second::{FLAGS, MOST_CHOICES};
use std::hint::black_box;

/// The block that Start writes for a script.
pub fn start_block(file: &[u8]) -> Vec<u8> {
    let mut lent = vec![0; block::LENGTH];
    assert_eq!(second::start(file, &mut lent).number, 0);
    lent
}

/// A script's file, and the block that so many choices of position 0 lead to.
pub fn run_on(script: &Script, choices: usize) -> (Vec<u8>, Vec<u8>) {
    let file = script.encode();
    let mut lent = start_block(&file);
    assert_eq!(second::run(&file, &mut lent, &vec![0; choices]).number, 0);
    (file, lent)
}

/// A script's file, and the block of a state of it.
pub fn made(script: &Script, state: &State) -> (Vec<u8>, Vec<u8>) {
    (script.encode(), block::write(state))
}

pub fn check_times(file: &[u8]) -> Times {
    let (given, expected) = (engine::check(file), second::check(file));
    let second::Reply { number, place, ty, silent } = expected;
    assert_eq!(given, engine::CheckReply { number, place, start_type: ty, silent });
    race(|| engine::check(black_box(file)), || second::check(black_box(file)))
}

/// The silent moves from the first node that has the most of them.
pub fn silent_times(file: &[u8]) -> Times {
    let most = second::check(file).silent;
    let node =
        (0..LIMITS[5] as u32).find(|&node| second::silent(file, node).count == most).expect("a node has the most");
    let second::SilentReply { number, place, count } = second::silent(file, node);
    assert_eq!(engine::silent(file, node), engine::SilentReply { number, place, count });
    race(|| engine::silent(black_box(file), black_box(node)), || second::silent(black_box(file), black_box(node)))
}

pub fn start_times(file: &[u8]) -> Times {
    let (mut one, mut other) = (vec![0; block::LENGTH], vec![0; block::LENGTH]);
    assert_eq!(engine::start(file, &mut one).number, second::start(file, &mut other).number);
    assert!(one == other);
    race(|| engine::start(black_box(file), &mut one), || second::start(black_box(file), &mut other))
}

/// Offer on this block, which must be well formed.
pub fn offer_times(file: &[u8], lent: &[u8]) -> Times {
    let (mut one, mut other) = ([0; FLAGS], [0; FLAGS]);
    assert_eq!(engine::offer(file, lent, &mut one).number, 0);
    assert_eq!(second::offer(file, lent, &mut other).number, 0);
    assert!(one == other);
    race(
        || engine::offer(black_box(file), black_box(lent), &mut one),
        || second::offer(black_box(file), black_box(lent), &mut other),
    )
}

/// One Run from this block, which must be well formed; the copy of the block that it runs on is taken off.
pub fn run_times(file: &[u8], from: &[u8], choices: &[u8]) -> Times {
    let (mut one, mut other) = (from.to_vec(), from.to_vec());
    let (given, expected) = (engine::run(file, &mut one, choices), second::run(file, &mut other, choices));
    assert_eq!((given.number, given.stop, given.moves), (0, expected.stop, expected.moves));
    assert!(one == other);
    let times = race(
        || {
            one.copy_from_slice(black_box(from));
            engine::run(black_box(file), &mut one, black_box(choices))
        },
        || {
            other.copy_from_slice(black_box(from));
            second::run(black_box(file), &mut other, black_box(choices))
        },
    );
    let copy = copy_time();
    Times { engine: times.engine - copy, second: times.second - copy }
}

/// The time of a copy of a block.
pub fn copy_time() -> f64 {
    let from = vec![1u8; block::LENGTH];
    let mut to = vec![0u8; block::LENGTH];
    alone(|| {
        to.copy_from_slice(black_box(&from));
        to[0]
    })
}

/// The choices of the last position that can move each time, to the end of the run or of a choice list, and the block that they lead to.
pub fn played(file: &[u8], mut lent: Vec<u8>) -> (Vec<u8>, Vec<u8>) {
    let mut choices = vec![];
    let mut flags = [0; FLAGS];
    while choices.len() < MOST_CHOICES {
        assert_eq!(second::offer(file, &lent, &mut flags).number, 0);
        let Some(last) = flags.iter().rposition(|&flag| flag == 1) else { break };
        if second::run(file, &mut lent, &[last as u8]).moves == 0 {
            break;
        }
        choices.push(last as u8);
    }
    (choices, lent)
}
