//! The generators of blocks: what is made is accepted, and damage is refused often, not always.

use second::block::Area;
use second::block_damage::{damage, Edit, ValueDamage};
use second::cases::{any_case, Origin};
use second::expr::Expr;
use second::generate::Rng;
use second::parts::answers;
use second::state::{Focus, Frame, MOST_BINDINGS, MOST_FRAMES, MOST_OBJECTS, MOST_THREADS};
use second::wellformed::state_of;
use second::{offer, program::Program, run};
use std::collections::BTreeMap;

#[test]
fn made_blocks_are_accepted_and_damaged_ones_often_not() {
    let mut rng = Rng::new(1);
    let mut damaged: BTreeMap<(bool, u16), u32> = BTreeMap::new();
    let mut made = 0;
    for _ in 0..30_000 {
        let case = any_case(&mut rng);
        let number = offer(&case.script, &case.block, &mut case.flags.clone()).number;
        assert!(case.allows(number), "{:?}: {number} is none of {:?}", case.origin, case.answers);
        match case.origin {
            Origin::Damaged(_) => *damaged.entry((false, number)).or_default() += 1,
            Origin::DamagedAgain => *damaged.entry((true, number)).or_default() += 1,
            Origin::Made | Origin::Reached => made += 1,
            Origin::Unfit => {}
        }
    }
    assert!(made > 15_000 && damaged.values().sum::<u32>() > 8_000, "{made} {damaged:?}");
    let of = |again: bool| [0, 21, 26, 27].map(|number| damaged[&(again, number)]);
    assert!(of(false).iter().all(|&times| times > 1_000) && of(true).iter().all(|&times| times > 50), "{damaged:?}");
}

/// Many edits of each of some blocks: what an edit says that it may lead to is just what came up. A word's column does not
/// count here, nor what a value becomes, unless that is no kind.
#[test]
fn what_becomes_of_each_edit() {
    let mut rng = Rng::new(4);
    let mut seen: BTreeMap<Edit, BTreeMap<u16, u32>> = BTreeMap::new();
    for _ in 0..5_000 {
        let case = any_case(&mut rng);
        let (Ok(program), Origin::Made | Origin::Reached) = (Program::read(&case.script), case.origin) else {
            continue;
        };
        for _ in 0..60 {
            let mut block = case.block.clone();
            let Some(edit) = damage(&mut block, program.types.int, &mut rng) else { continue };
            let number = offer(&case.script, &block, &mut case.flags.clone()).number;
            assert!(answers(&case.script, &case.block, &block).contains(&number), "{edit:?}: {number}");
            *seen.entry(kind(edit)).or_default().entry(number).or_default() += 1;
        }
    }
    for (edit, numbers) in &seen {
        println!("{edit:?} {numbers:?}");
        let came_up: Vec<u16> = numbers.keys().copied().collect();
        match edit {
            // For 27 someone has to stand under a last binding that is all zeros, as in a block of `sweep`.
            Edit::Count(Area::Bindings) => assert_eq!(came_up, [0, 26]),
            _ => assert_eq!(came_up, edit.answers(), "{edit:?}"),
        }
    }
    assert_eq!(seen.len(), 35);
}

fn kind(edit: Edit) -> Edit {
    match edit {
        Edit::Word { area, .. } => Edit::Word { area, column: 0 },
        Edit::Value { area, damage } if damage != ValueDamage::Kind => Edit::Value { area, damage: ValueDamage::Null },
        other => other,
    }
}

/// Refusals of buffers come up, each often.
#[test]
fn unfit_cases_get_every_number() {
    let mut rng = Rng::new(2);
    let mut seen: BTreeMap<u16, u32> = BTreeMap::new();
    for _ in 0..10_000 {
        let mut case = any_case(&mut rng);
        if case.origin == Origin::Unfit {
            *seen.entry(run(&case.script, &mut case.block, &case.choices).number).or_default() += 1;
        }
    }
    assert!([0, 20, 22].iter().all(|number| seen[number] > 50), "{seen:?}");
    assert!([21, 26, 27].iter().all(|number| seen[number] > 5), "{seen:?}");
    assert!((1..=15).filter(|number| seen.contains_key(number)).count() > 10, "{seen:?}");
}

/// What no run, or only a long one, leads to.
#[test]
fn made_blocks_are_varied() {
    let mut rng = Rng::new(3);
    let mut seen: BTreeMap<&str, u32> = BTreeMap::new();
    for _ in 0..6_000 {
        let case = any_case(&mut rng);
        if case.origin != Origin::Made {
            continue;
        }
        let Ok(program) = Program::read(&case.script) else { unreachable!("these scripts are accepted") };
        let state = state_of(&program, &case.block).expect("made blocks are well formed");
        let positions = state.tree.positions();
        let failed = positions.iter().filter(|position| position.tree.is_failed()).count();
        let locked = positions.iter().flat_map(|position| position.tree.locks()).count();
        let shut = state.objects.iter().filter(|object| object.shut).count();
        let frames: usize = positions.iter().map(|position| position.tree.frames.len()).sum();
        let waiting = |frame: &Frame| matches!(frame, Frame::Waiting(_));
        let holds = |position: &second::state::Position| position.tree.frames.iter().any(waiting);
        let ends_in_null = |frame: &Frame| match *frame {
            Frame::Waiting(at) => matches!(program.expressions[at.node as usize],
                Expr::Let { body, .. } if matches!(program.expressions[body as usize], Expr::Null)),
            _ => false,
        };
        let gives_null = |position: &second::state::Position| position.tree.frames.iter().any(ends_in_null);
        let leftmost_failed = |tree: &second::state::Tree| match &tree.focus {
            Focus::Join { sides, .. } => sides[0].is_failed() && tree.locks().count() > 0,
            _ => false,
        };
        for (what, is_so) in [
            ("several failed threads", failed > 1),
            ("shut objects beside a failed thread", failed > 0 && shut > locked),
            ("a join's lock frames that nobody holds", positions.iter().any(|position| leftmost_failed(position.tree))),
            ("a write, call or let that waits", positions.iter().any(holds)),
            ("a let that waits and ends in null", positions.iter().any(gives_null)),
            ("objects full", state.objects.len() == MOST_OBJECTS),
            ("bindings full", state.bindings.len() == MOST_BINDINGS),
            ("room for one binding", state.bindings.len() == MOST_BINDINGS - 1),
            ("frames full", frames == MOST_FRAMES),
            ("threads full", positions.len() == 2 * MOST_THREADS - 1),
        ] {
            *seen.entry(what).or_default() += u32::from(is_so);
        }
    }
    assert!(seen.values().all(|&count| count > 20), "{seen:?}");
}
