//! Rows of silent moves in runs. Every running thread of a well-formed block is moved as long as its node is of a silent kind, once alone and once among the moves of others, and makes just as many
//! moves as the engine counts for the node where it began; only full frames stop it before. Which moves are silent, and what comes behind them, is read from the bytes of script and block, and
//! not from the count.

use crate::lent::{Lent, Side, FORK, LOCK, NEW};
use second::block;
use second::cases::{any_case, Case, Origin};
use second::directed::sized;
use second::generate::Rng;
use second::script::Script;
use second::state::{Binding, Closure, Focus, Frame, Object, State, Tree, Value, MOST_FRAMES};
use std::collections::BTreeMap;
use std::time::Instant;

/// What comes up once in this many blocks comes up often enough.
const RARE: u64 = 2_500;

/// Why a Run of one choice came back.
const SPENT: u16 = 0;
const FINISHED: u16 = 1;
const DEADLOCK: u16 = 3;
const FULL_OBJECTS: u16 = 4;
const FULL_BINDINGS: u16 = 5;
const FULL_FRAMES: u16 = 6;
const FULL_THREADS: u16 = 7;

/// How a thread's row of silent moves ends where no other moves.
#[derive(Clone, Copy, Debug, PartialEq, Eq, PartialOrd, Ord)]
enum End {
    /// The thread has a value and no frame.
    Finished,
    /// Its value goes to a frame.
    StepAtFrame,
    /// The node's own move is published.
    StepAtNode,
    Waits,
    /// The published step that is due needs a place that the block has not: the stop.
    FullForStep(u16),
    /// A silent move needs a place for a frame.
    FullForRow,
}

/// What comes up.
#[derive(Clone, Copy, Debug, PartialEq, Eq, PartialOrd, Ord)]
enum Seen {
    /// The thread's next move was no silent one.
    NoRow(End),
    Alone(End),
    /// Others moved meanwhile.
    AmongOthers,
    /// By that the thread's position got another number.
    Renumbered,
    /// Full frames stopped it, and it went on when others had made room.
    RoomAgain,
    /// Full frames stopped it, and others made no room.
    FullAmongOthers,
    /// A join above the thread failed.
    Dropped,
}

/// What must come up. A lock that has no place for its frame is rare, and one of `by_hand`.
const LOOKED_FOR: [Seen; 17] = [
    Seen::NoRow(End::StepAtNode),
    Seen::NoRow(End::Waits),
    Seen::NoRow(End::FullForStep(FULL_OBJECTS)),
    Seen::NoRow(End::FullForStep(FULL_THREADS)),
    Seen::Alone(End::Finished),
    Seen::Alone(End::StepAtFrame),
    Seen::Alone(End::StepAtNode),
    Seen::Alone(End::Waits),
    Seen::Alone(End::FullForStep(FULL_OBJECTS)),
    Seen::Alone(End::FullForStep(FULL_BINDINGS)),
    Seen::Alone(End::FullForStep(FULL_THREADS)),
    Seen::Alone(End::FullForRow),
    Seen::AmongOthers,
    Seen::Renumbered,
    Seen::RoomAgain,
    Seen::FullAmongOthers,
    Seen::Dropped,
];

type Tally = BTreeMap<Seen, u64>;

pub fn compare(count: u64, seed: u64) -> Result<(), String> {
    let begin = Instant::now();
    let (mut rng, mut tally) = (Rng::new(seed), Tally::new());
    by_hand()?;
    for done in 1..=count {
        let case = well_formed(&mut rng);
        let mut after = case.block.clone();
        engine::run(&case.script, &mut after, &case.choices);
        for block in [&case.block, &after] {
            threads(&case.script, block, &mut rng, &mut tally)
                .map_err(|message| format!("case {done} of seed {seed}, {:?}: {message}", case.origin))?;
        }
        crate::progress(begin, done, count);
    }
    println!(
        "{count} blocks with seed {seed}, and those that their choices lead to: how often each end of a row came up"
    );
    let times = |seen: Seen| tally.get(&seen).copied().unwrap_or(0);
    LOOKED_FOR.into_iter().for_each(|seen| println!("{:8} {seen:?}", times(seen)));
    match LOOKED_FOR.into_iter().find(|&seen| times(seen) < count.div_ceil(RARE)) {
        Some(seen) => Err(format!("{seen:?} came up too rarely")),
        None => Ok(()),
    }
}

/// A case whose block a run led to, or that was made without running.
fn well_formed(rng: &mut Rng) -> Case {
    loop {
        let case = any_case(rng);
        if [Origin::Reached, Origin::Made].contains(&case.origin) {
            return case;
        }
    }
}

/// The longest row that there is, 1,023 casts and a null from Start; and let x = new C in (C) lock x in x, at the cast with
/// room for two frames, for one, which the cast takes, and for none.
fn by_hand() -> Result<(), String> {
    let casts = sized([0, 0, 0, 0, 0, 1024]);
    let nodes = vec![[5, 2, 1, 2], [NEW, 2, 0, 0], [7, 2, 3, 0], [LOCK, 2, 4, 0], [1, 2, 0, 0]];
    let locked = Script { interfaces: vec![[0; 3]], classes: vec![[1, 0, 0]], nodes, ..Script::default() };
    let at_cast = |room: usize| {
        let focus = Focus::Node(Closure { node: 2, environment: Some(0) });
        State {
            objects: vec![Object { class: 2, shut: false, fields: vec![] }],
            bindings: vec![Binding { name: 2, ty: 2, value: Value::Object(0), beneath: None }],
            tree: Tree { frames: vec![Frame::Cast { node: 2 }; MOST_FRAMES - room], focus },
        }
    };
    for (script, state, count, end) in [
        (&casts, State::initial(), 1_024, End::StepAtFrame),
        (&locked, at_cast(2), 1, End::StepAtNode),
        (&locked, at_cast(1), 1, End::FullForStep(FULL_FRAMES)),
        (&locked, at_cast(0), 1, End::FullForRow),
    ] {
        let lent = Lent { script: &script.encode(), block: block::write(&state) };
        let node = lent.node(0).ok_or("the thread is at a node")?;
        let given = (engine::silent(lent.script, node.into()).count, alone(&mut lent.clone(), 0, count)?);
        if given != (count, end) {
            return Err(format!("by hand: {given:?} and not {:?}", (count, end)));
        }
    }
    Ok(())
}

/// Each thread that is at a node, alone and, if it has a row, among the others.
fn threads(script: &[u8], block: &[u8], rng: &mut Rng, tally: &mut Tally) -> Result<(), String> {
    let lent = Lent { script, block: block.to_vec() };
    for position in 0..lent.positions() {
        let Some(node) = lent.node(position) else { continue };
        let count = engine::silent(script, node.into()).count;
        let about = |message| format!("position {position}, at node {node} with a count of {count}: {message}");
        let end = alone(&mut lent.clone(), position, count).map_err(about)?;
        *tally.entry(if count == 0 { Seen::NoRow(end) } else { Seen::Alone(end) }).or_default() += 1;
        if count > 0 && lent.positions() > 1 {
            let seen = among(&mut lent.clone(), position, count, rng).map_err(about)?;
            seen.into_iter().for_each(|seen| *tally.entry(seen).or_default() += 1);
        }
    }
    Ok(())
}

/// Chooses this position alone, as long as its move is silent.
fn alone(lent: &mut Lent, position: usize, count: u16) -> Result<End, String> {
    let room = lent.room_for_frames();
    let mut moves = 0;
    while lent.is_silent(position) {
        let descends = lent.descends(position);
        let reply = lent.choose(position)?;
        match (reply.stop, reply.moves) {
            (FULL_FRAMES, 0) if descends && moves == room && moves < count => return Ok(End::FullForRow),
            (SPENT | FINISHED | DEADLOCK, 1) => moves += 1,
            _ => return Err(format!("behind {moves} silent moves, with room for {room} frames: {reply:?}")),
        }
    }
    match moves == count {
        true => behind(lent, position),
        false => Err(format!("alone it makes {moves} silent moves")),
    }
}

/// What comes behind the last silent move: chooses the position once more.
fn behind(lent: &mut Lent, position: usize) -> Result<End, String> {
    let (before, kind, frames) = (lent.clone(), lent.kind(position), lent.waiting_frames(position));
    let reply = lent.choose(position)?;
    let stays = reply.moves == 0 && lent.block == before.block;
    match (reply.stop, kind, frames) {
        (_, None, Some(0)) if stays => Ok(End::Finished),
        (SPENT | DEADLOCK, Some(LOCK), _) if stays && !before.is_offered(position) => Ok(End::Waits),
        (FULL_BINDINGS, None, Some(1..)) if stays => Ok(End::FullForStep(reply.stop)),
        (FULL_OBJECTS, Some(NEW), _) | (FULL_FRAMES, Some(LOCK), _) | (FULL_THREADS, Some(FORK), _) if stays => {
            Ok(End::FullForStep(reply.stop))
        }
        (0..=3, None, Some(1..)) if reply.moves == 1 => Ok(End::StepAtFrame),
        (0..=3, Some(_), _) if reply.moves == 1 => Ok(End::StepAtNode),
        _ => Err(format!("behind its silent moves, at a node of kind {kind:?} or with frames {frames:?}: {reply:?}")),
    }
}

/// Chooses this position and others, at random, as long as its move is silent: then it has made as many as it makes alone.
fn among(lent: &mut Lent, position: usize, count: u16, rng: &mut Rng) -> Result<Vec<Seen>, String> {
    let way = lent.way_to(position);
    let (mut moves, mut others, mut full) = (0, 0, false);
    for _ in 0..16 * usize::from(count) + 64 {
        let Some(now) = lent.at(&way).filter(|&now| lent.is_silent(now)) else { break };
        if rng.one_in(2) {
            others += move_other(lent, &way, rng)?;
            continue;
        }
        let reply = lent.choose(now)?;
        match (reply.stop, reply.moves) {
            (FULL_FRAMES, 0) if lent.room_for_frames() == 0 => full = true, // others may make room
            (SPENT | FINISHED | DEADLOCK, 1) => moves += 1,
            _ => return Err(format!("behind {moves} silent moves among others: {reply:?}")),
        }
    }
    let (is_right, seen) = match lent.at(&way) {
        None => (moves < count, vec![(true, Seen::Dropped)]),
        Some(now) if lent.is_silent(now) => (full && moves < count, vec![(true, Seen::FullAmongOthers)]),
        Some(now) => {
            let seen = [(others > 0, Seen::AmongOthers), (now != position, Seen::Renumbered), (full, Seen::RoomAgain)];
            (moves == count, seen.to_vec())
        }
    };
    match is_right {
        true => Ok(seen.into_iter().filter(|(is_so, _)| *is_so).map(|(_, seen)| seen).collect()),
        false => Err(format!("among others it makes {moves} silent moves, and then {seen:?}")),
    }
}

/// Chooses any position but the one that the way leads to, whose record it leaves as it was, unless it drops it. How many moves that makes.
fn move_other(lent: &mut Lent, way: &[Side], rng: &mut Rng) -> Result<u16, String> {
    let record = |lent: &Lent| lent.at(way).map(|at| lent.record(at).to_vec());
    let (other, before) = (rng.below(lent.positions()), record(lent));
    if Some(other) == lent.at(way) {
        return Ok(0);
    }
    let reply = lent.choose(other)?;
    let after = record(lent);
    match after.is_none() || after == before {
        true => Ok(reply.moves),
        false => Err(format!("a move of position {other} changes it")),
    }
}
