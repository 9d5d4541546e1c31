//! What must hold of every run, on random scripts from random well-formed blocks.

use second::cases::{any_case, Case, Origin};
use second::generate::Rng;
use second::program::Program;
use second::state::{held, Focus, State};
use second::wellformed::state_of;
use second::{block, offer, run, Answer, RunReply, FLAGS};

const CASES: usize = 700;

/// Cases whose block is well formed, reached or made.
fn cases(seed: u64) -> impl Iterator<Item = (Case, Rng)> {
    let mut rng = Rng::new(seed);
    let well_formed = |case: &Case| [Origin::Reached, Origin::Made].contains(&case.origin);
    std::iter::repeat_with(move || (any_case(&mut rng), Rng::new(rng.bits())))
        .filter(move |(case, _)| well_formed(case))
        .take(CASES)
}

fn state(case: &Case, lent: &[u8]) -> State {
    let Ok(program) = Program::read(&case.script) else { unreachable!("these scripts are accepted") };
    state_of(&program, lent).expect("the block is well formed")
}

fn flags(case: &Case, lent: &[u8]) -> [u8; FLAGS] {
    let mut flags = [0xAA; FLAGS];
    assert_eq!(offer(&case.script, lent, &mut flags), Answer { number: 0, place: 0 });
    flags
}

/// The reply of a Run that is not refused, and the block that it leaves.
fn ran(case: &Case, lent: &[u8], choices: &[u8]) -> (RunReply, Vec<u8>) {
    let mut lent = lent.to_vec();
    let reply = run(&case.script, &mut lent, choices);
    assert_eq!((reply.number, reply.place), (0, 0));
    (reply, lent)
}

#[test]
fn every_block_reads_back() {
    for (case, _) in cases(1) {
        let (_, after) = ran(&case, &case.block, &case.choices);
        for lent in [&case.block, &after] {
            assert!(block::write(&state(&case, lent)) == *lent);
        }
    }
}

/// Run asks the questions about the block again at each call, so this is also preservation.
#[test]
fn a_run_split_in_two_is_the_same_run() {
    for (case, mut rng) in cases(2) {
        let (whole, after) = ran(&case, &case.block, &case.choices);
        let (first, second) = case.choices.split_at(rng.below(case.choices.len() + 1));
        let (one, between) = ran(&case, &case.block, first);
        if one.stop >= 4 {
            assert_eq!((whole, &after), (one, &between)); // a full store ends the run there
            continue;
        }
        let (two, end) = ran(&case, &between, second);
        assert_eq!((whole.stop, whole.read, whole.moves), (two.stop, one.read + two.read, one.moves + two.moves));
        assert!(after == end);
    }
}

/// "The block that it would leave with only its first n choices, for each n": all are well formed.
#[test]
fn choices_one_at_a_time() {
    for (case, _) in cases(3).take(CASES / 3) {
        let choices = &case.choices[..case.choices.len().min(60)];
        let (whole, after) = ran(&case, &case.block, choices);
        let (mut lent, mut moves) = (case.block.clone(), 0);
        for choice in &choices[..whole.read as usize] {
            let (reply, next) = ran(&case, &lent, &[*choice]);
            moves += reply.moves;
            assert_eq!(next == lent, reply.moves == 0, "a move always changes the block");
            lent = next;
        }
        assert_eq!((moves, lent == after), (whole.moves, true));
    }
}

#[test]
fn offer_marks_what_moves_or_meets_a_full_store() {
    for (case, _) in cases(4) {
        let (_, after) = ran(&case, &case.block, &case.choices);
        for lent in [&case.block, &after] {
            let flags = flags(&case, lent);
            let at_rest = (1..=3).contains(&ran(&case, lent, &[]).0.stop);
            assert_eq!(flags.iter().all(|&flag| flag == 0), at_rest);
            for position in 0..=255 {
                let (reply, next) = ran(&case, lent, &[position]);
                let able = reply.moves == 1 || reply.stop >= 4;
                assert_eq!(u8::from(able), flags.get(position as usize).copied().unwrap_or(0));
                assert!(reply.moves == 1 || next == *lent);
                assert_eq!(reply.read, u16::from(!at_rest));
                if position as usize > state(&case, lent).tree.positions().len() + 2 {
                    break;
                }
            }
        }
    }
}

/// "Finished and failed are said of a run when its root is such a thread."
#[test]
fn stops_say_what_the_root_is() {
    let mut seen = [0; 8];
    for (case, _) in cases(5) {
        let (reply, after) = ran(&case, &case.block, &case.choices);
        let state = state(&case, &after);
        seen[reply.stop as usize] += 1;
        assert_eq!(reply.stop == 1, state.tree.is_finished());
        assert_eq!(reply.stop == 2, state.tree.is_failed());
        let still = flags(&case, &after).iter().all(|&flag| flag == 0);
        assert_eq!(reply.stop == 3, still && !state.tree.is_finished() && !state.tree.is_failed());
        assert!(reply.stop != 0 || reply.read as usize == case.choices.len());
    }
    assert!(seen.iter().all(|&count| count > 0), "{seen:?}");
}

#[test]
fn a_lock_has_at_most_one_holder() {
    let mut held_in_all = 0;
    for (case, _) in cases(6) {
        let (_, after) = ran(&case, &case.block, &case.choices);
        let state = state(&case, &after);
        let positions = state.tree.positions();
        let none_failed = !positions.iter().any(|position| position.tree.is_failed());
        for (number, object) in (0..).zip(&state.objects) {
            let is_thread = |at: usize| matches!(positions[at].tree.focus, Focus::Node(_) | Focus::Value(_));
            let holds = |at: usize| is_thread(at) && held(&positions, at).any(|other| other == number);
            let holders = (0..positions.len()).filter(|&at| holds(at)).count();
            assert!(holders <= usize::from(object.shut));
            assert!(!none_failed || holders == usize::from(object.shut));
            held_in_all += holders;
        }
    }
    assert!(held_in_all > CASES / 2, "{held_in_all}");
}

/// "Objects and bindings are never freed", and what a binding says is never changed.
#[test]
fn objects_and_bindings_stay() {
    for (case, _) in cases(7) {
        let (_, after) = ran(&case, &case.block, &case.choices);
        let (before, after) = (state(&case, &case.block), state(&case, &after));
        assert!(after.bindings.starts_with(&before.bindings));
        let classes = |state: &State| state.objects.iter().map(|object| object.class).collect::<Vec<_>>();
        assert!(classes(&after).starts_with(&classes(&before)));
    }
}
