//! The reduced search against the whole one, which tries every move in every state: they must find the same ends. Thousands of small random scripts, from their start, from states on the way and
//! from states in which a store is nearly full; where there are few states a third search, the tests' own, must find them too. Every list is played again by Run.

mod common;

use common::dice::Dice;
use common::duels::Side;
use common::tight::{self, Room};
use common::writer::{text, Shape};
use common::{able, crowd, deeds, duels, plain, replay, run, script, start};
use oolong::explore::search::{search, Found, Options};
use oolong::script::Script;
use oolong::state::State;
use std::collections::BTreeSet;
use std::ops::Range;
use std::panic::{catch_unwind, AssertUnwindSafe};

/// States of the reduced and of the whole search; scripts with more are not compared.
#[derive(Clone, Copy, Debug)]
struct Most {
    reduced: usize,
    whole: usize,
}

const MOST: Most = Most { reduced: 600, whole: 2_000 };

/// States of the tests' own search, which takes longer.
const OWN: usize = 400;

/// So many seeds. OOLONG_SEED=1000000 in the environment takes others, to look further.
fn seeds(first: u64, count: u64) -> Range<u64> {
    let other = std::env::var("OOLONG_SEED").ok().and_then(|seed| seed.parse().ok()).unwrap_or(0);
    first + other..first + other + count
}

/// How many scripts were compared, and what came up in how many of them.
#[derive(Default, Debug)]
struct Tally {
    compared: usize,
    skipped: usize,
    /// The reduction leaves less than half of the states.
    halved: usize,
    /// It finishes with several outcomes.
    several: usize,
    /// It can stop with each number.
    stops: [usize; 8],
}

impl Tally {
    /// Random scripts say nothing of what does not come up in them.
    fn has(&self, compared: usize, halved: usize, stops: &[(usize, usize)]) {
        println!("{self:?}");
        assert!(self.compared >= compared && self.halved >= halved, "{self:?}");
        assert!(stops.iter().all(|&(stop, least)| self.stops[stop] >= least), "{self:?}");
    }
}

/// What a search finds; none of its blocks may be refused.
fn found(script: &Script, from: &[u8], whole: bool, states: usize) -> Found {
    search(script, from, &Options { states, whole }, &mut |_| {}).unwrap_or_else(|fault| panic!("{}", fault.line))
}

/// The ends of a search, as the tests tell them, from its lists. Each list must lead to its end, and no two to one outcome.
fn replayed(script: &Script, from: &[u8], found: &Found) -> BTreeSet<(u16, String)> {
    let mut ends = BTreeSet::new();
    for (end, list) in &found.ends {
        let mut block = from.to_vec();
        let stop = replay(script, &mut block, list);
        assert_eq!(stop, end.stop, "the list {list:?} does not lead to its end");
        let new = ends.insert((stop, plain::told(script, &block, stop)));
        assert!(new || stop == 3, "two ends are one: {list:?}");
    }
    ends
}

/// Compares the searches, unless there are too many states.
fn compare(script: &Script, from: &[u8], most: Most, tally: &mut Tally) {
    let reduced = found(script, from, false, most.reduced);
    let whole = reduced.complete.then(|| found(script, from, true, most.whole));
    let Some(whole) = whole.filter(|whole| whole.complete) else {
        tally.skipped += 1;
        return;
    };
    let keys = |found: &Found| found.ends.keys().cloned().collect::<Vec<_>>();
    assert_eq!(keys(&reduced), keys(&whole), "reduced and whole");
    for (end, list) in reduced.ends.iter().filter(|(end, _)| end.stop == 1 || end.stop == 3) {
        assert_eq!(list.len(), whole.ends[end].len(), "the list to an outcome or a deadlock is not the shortest");
    }
    let ends = replayed(script, from, &whole);
    assert_eq!(replayed(script, from, &reduced), ends, "reduced and whole, played again");
    if whole.progress.states <= OWN {
        let own = plain::search(script, from, OWN).expect("the whole search has met too few states");
        assert_eq!((own.states, &own.ends), (whole.progress.states, &ends), "the tests' own search and the whole one");
    }
    tally.compared += 1;
    tally.halved += usize::from(2 * reduced.progress.states < whole.progress.states);
    tally.several += usize::from(ends.iter().filter(|end| end.0 == 1).count() > 1);
    let stops: BTreeSet<u16> = ends.iter().map(|end| end.0).collect();
    stops.iter().for_each(|&stop| tally.stops[usize::from(stop)] += 1);
}

/// Compares, and says which script it was where something is wrong.
fn judge(seed: u64, text: &str, from: impl FnOnce(&Script) -> Vec<u8>, tally: &mut Tally) {
    judge_within(MOST, seed, text, from, tally);
}

fn judge_within(most: Most, seed: u64, text: &str, from: impl FnOnce(&Script) -> Vec<u8>, tally: &mut Tally) {
    let script = script(text);
    let from = from(&script);
    let judged = catch_unwind(AssertUnwindSafe(|| compare(&script, &from, most, tally)));
    assert!(judged.is_ok(), "seed {seed}:\n{text}");
}

#[test]
fn from_the_start() {
    let mut tally = Tally::default();
    for seed in seeds(0, 1_200) {
        judge(seed, &text(seed, Shape::Open, false), start, &mut tally);
    }
    tally.has(1_000, 600, &[(1, 700), (2, 150), (3, 30)]);
    assert!(tally.several >= 100, "{tally:?}");
}

#[test]
fn deeds_to_shared_objects() {
    let mut tally = Tally::default();
    for seed in seeds(40_000, 1_000) {
        judge(seed, &deeds::text(seed), start, &mut tally);
    }
    tally.has(850, 650, &[(1, 500), (2, 180), (3, 15)]);
    assert!(tally.several >= 150, "{tally:?}");
}

/// Some moves, chosen at random.
fn wander(script: &Script, block: &mut [u8], dice: &mut Dice) {
    for _ in 0..dice.below(40) {
        let able = able(script, block);
        if able.is_empty() {
            return;
        }
        run(script, block, &[*dice.pick(&able)]);
    }
}

#[test]
fn from_states_on_the_way() {
    let mut tally = Tally::default();
    for seed in seeds(10_000, 300) {
        let from = |script: &Script| {
            let mut block = start(script);
            wander(script, &mut block, &mut Dice::of(!seed));
            block
        };
        judge(seed, &text(seed, Shape::Open, false), from, &mut tally);
    }
    tally.has(250, 100, &[(1, 150), (2, 40), (3, 5)]);
}

/// A block in which little room is left: from the start on, or so little behind some moves that the next ones meet it.
fn crowded(script: &Script, room: Room, dice: &mut Dice) -> Vec<u8> {
    if dice.percent(40) {
        return tight::block(script, room, |_| {});
    }
    let mut less = |free: Option<usize>, most: usize| free.map(|_| dice.below(most));
    let room = Room {
        objects: less(room.objects, 3),
        bindings: less(room.bindings, 7),
        frames: less(room.frames, 5),
        threads: less(room.threads, 3),
    };
    tight::block(script, room, |block| wander(script, block, dice))
}

#[test]
fn nearly_full_objects_and_bindings() {
    let mut tally = Tally::default();
    for seed in seeds(20_000, 350) {
        let mut dice = Dice::of(!seed);
        let (endless, which) = (dice.percent(50), dice.below(4));
        let objects = (which != 1).then(|| 2 + dice.below(4));
        let bindings = (which != 0).then(|| 4 + dice.below(14));
        let room = Room { objects, bindings, ..Room::default() };
        let text = if dice.percent(50) { text(seed, Shape::Open, endless) } else { crowd::text(seed, Shape::Open) };
        judge(seed, &text, |script| crowded(script, room, &mut dice), &mut tally);
    }
    tally.has(300, 80, &[(1, 80), (2, 30), (4, 40), (5, 80)]);
}

#[test]
fn nearly_full_frames_and_threads() {
    let mut tally = Tally::default();
    for seed in seeds(30_000, 350) {
        let mut dice = Dice::of(!seed);
        let (endless, which) = (dice.percent(30), dice.below(5));
        let frames = (which != 1).then(|| 1 + dice.below(8));
        let threads = (which != 0).then(|| 1 + dice.below(4));
        let bindings = endless.then(|| 6 + dice.below(12));
        let room = Room { frames, threads, bindings, ..Room::default() };
        let text = if dice.percent(40) { text(seed, Shape::Beside, endless) } else { crowd::text(seed, Shape::Beside) };
        judge(seed, &text, |script| crowded(script, room, &mut dice), &mut tally);
    }
    tally.has(300, 40, &[(2, 40), (3, 150), (6, 40), (7, 30)]);
}

/// Moves of the first position that can move, up to the state with so many positions.
fn to_the_fork(script: &Script, block: &mut [u8], positions: usize) {
    while State::of(script, block).positions.len() < positions {
        let able = able(script, block);
        run(script, block, &able[..1]);
    }
}

/// Some moves of the first position that can move, then some of the last.
fn left_then_right(script: &Script, block: &mut [u8], left: usize, right: usize) {
    for number in 0..left + right {
        let able = able(script, block);
        let choice = if number < left { able.first() } else { able.last() };
        let Some(&choice) = choice else { return };
        run(script, block, &[choice]);
    }
}

#[test]
fn nearly_full_in_duels() {
    let mut tally = Tally::default();
    for seed in seeds(60_000, 6_000) {
        let mut dice = Dice::of(!seed);
        let (which, free) = (dice.below(4), dice.weighed(&[40, 30, 20, 10]));
        let is = |store: usize| (which == store).then_some(free);
        let room = Room { objects: is(0), bindings: is(1), frames: is(2), threads: is(3) };
        let (shape, positions) = if which < 2 { (Shape::Open, 3) } else { (Shape::Beside, 5) };
        let before = |script: &Script, block: &mut [u8], dice: &mut Dice| {
            to_the_fork(script, block, positions);
            left_then_right(script, block, dice.below(7), dice.below(7));
        };
        let from = |script: &Script| tight::block(script, room, |block| before(script, block, &mut dice));
        judge(seed, &duels::text(seed, shape, Side::Any), from, &mut tally);
    }
    tally.has(5_900, 300, &[(1, 500), (2, 1_500), (3, 500), (4, 30), (5, 200), (6, 200), (7, 80)]);
}

/// A join, whether its sides have finished or one has failed, gives threads back that a fork beside it needs: who goes first decides whether threads are full. Every state on the way in which that
/// can be so.
#[test]
fn joins_that_give_threads_back() {
    let fork = "finish { async { 1 } async { 2 } }; 3";
    let mut tally = Tally::default();
    for left in [fork, "finish { async { z.n } async { 2 } }; 3"] {
        let text = duels::between(left, fork, Shape::Beside);
        for (left, right, free) in (0..100).map(|i| (i / 2 % 10, i / 20, i % 2)) {
            let room = Room { threads: Some(free), ..Room::default() };
            let before = |script: &Script, block: &mut [u8]| {
                to_the_fork(script, block, 5);
                left_then_right(script, block, left, right);
            };
            judge(left as u64, &text, |script| tight::block(script, room, |block| before(script, block)), &mut tally);
        }
    }
    tally.has(200, 10, &[(2, 30), (3, 90), (7, 60)]);
}

/// One of the two calls methods that call themselves, until there is no room.
#[test]
fn nearly_full_in_endless_duels() {
    let mut tally = Tally::default();
    for seed in seeds(65_000, 400) {
        let mut dice = Dice::of(!seed);
        let room = Room { bindings: Some(2 + dice.below(8)), objects: Some(1 + dice.below(3)), ..Room::default() };
        let before = |script: &Script, block: &mut [u8], dice: &mut Dice| {
            to_the_fork(script, block, 3);
            left_then_right(script, block, dice.below(7), dice.below(7));
        };
        let from = |script: &Script| tight::block(script, room, |block| before(script, block, &mut dice));
        judge(seed, &duels::text(seed, Shape::Open, Side::Turns), from, &mut tally);
    }
    tally.has(380, 0, &[(2, 100), (4, 20), (5, 200)]);
}

/// Here the frames are the root's own, so that runs finish with an outcome; each takes two thousand moves more for it.
#[test]
fn nearly_full_frames_of_the_root() {
    let mut tally = Tally::default();
    let most = Most { reduced: 10_000, whole: 10_000 };
    for seed in seeds(70_000, 30) {
        let free = 2 + Dice::of(!seed).below(3);
        let text = duels::text(seed, Shape::Cast, Side::Any);
        judge_within(most, seed, &text, |script| tight::cast_block(script, free, |_| {}), &mut tally);
    }
    tally.has(28, 0, &[(1, 3), (6, 6)]);
}

/// Here it does not, since one side fails; and what the other still needs is all that is needed.
#[test]
fn nearly_full_frames_where_one_fails() {
    let mut tally = Tally::default();
    for seed in seeds(71_000, 1_000) {
        let mut dice = Dice::of(!seed);
        let free = dice.weighed(&[50, 30, 20]);
        let before = |script: &Script, block: &mut [u8], dice: &mut Dice| {
            to_the_fork(script, block, 3);
            left_then_right(script, block, dice.below(7), dice.below(7));
        };
        let from = |script: &Script| tight::cast_block(script, free, |block| before(script, block, &mut dice));
        judge(seed, &duels::text(seed, Shape::Cast, Side::Fails), from, &mut tally);
    }
    tally.has(950, 50, &[(2, 400), (6, 400)]);
}
