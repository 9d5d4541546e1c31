//! The table of what a changed word may lead to: its rows by their bytes, and every word of two small blocks changed in
//! turn. Each row says just what came up, so that one that says too much fails as one that says too little.

use second::parts::{answers, change_at, Change, Part};
use second::sweep::{small_blocks, sweep, Small};
use second::{offer, run, FLAGS};
use std::collections::{BTreeMap, BTreeSet};

fn answer(small: &Small, block: &[u8]) -> u16 {
    offer(&small.script, block, &mut [0; FLAGS]).number
}

#[test]
fn the_blocks_are_well_formed_and_move() {
    let counts = |small: &Small| [0, 2, 4, 6].map(|at| u16::from_le_bytes([small.block[at], small.block[at + 1]]));
    let blocks = small_blocks();
    assert_eq!(blocks.each_ref().map(counts), [[2, 4, 4, 3], [4, 3, 2, 5]]);
    for small in &blocks {
        assert_eq!(answer(small, &small.block), 0, "{}", small.name);
        let reply = run(&small.script, &mut small.block.clone(), small.choices);
        assert!(reply.number == 0 && reply.moves > 1, "{}: {reply:?}", small.name);
    }
}

/// Of the worked block: the header; object 1, whose class has two fields, so that its record ends with 36 unused bytes;
/// binding 3, position 2 and frame 3; and what is behind each of them.
#[test]
fn rows_by_their_bytes() {
    let [worked, _] = small_blocks();
    let [objects, bindings, threads] = Part::ALL.map(Change::Unused);
    for (bytes, new, change) in [
        (&[0][..], 9, Change::ObjectCount),
        (&[2], 2_048, Change::BindingCount),
        (&[2], 2_049, Change::ManyBindings),
        (&[4, 6], 9, Change::ThreadCount),
        (&[60], 1, Change::Class),
        (&[60], 128, Change::Class),
        (&[60], 129, Change::NoClass),
        (&[60], 0, Change::NoClass),
        (&[62], 0, Change::Lock),
        (&[62], 2, Change::NoLock),
        (&[64, 70], 2, Change::Field),
        (&[64, 70], 3, Change::NoKind(Part::Objects)),
        (&[66, 68, 72, 74], 3, Change::Field),
        (&[76, 110, 112, 13_318], 1, objects),
        (&[13_356], 65_535, Change::Name),
        (&[13_358], 129, Change::Type),
        (&[13_358], 130, Change::NoType),
        (&[13_360], 2, Change::Value),
        (&[13_360], 3, Change::NoKind(Part::Bindings)),
        (&[13_362, 13_364], 3, Change::Value),
        (&[13_366], 3, Change::Link),
        (&[13_366], 4, Change::LinkAhead),
        (&[13_368, 37_894], 1, bindings),
        (&[37_896, 37_930, 37_936, 38_778, 38_800], 2, Change::Thread),
        (&[37_930], 3, Change::NoKind(Part::Threads)),
        (&[37_938, 38_776, 38_802, 51_064, 51_066, 65_534], 1, threads),
    ] {
        for &at in bytes {
            assert_eq!(change_at(&worked.script, &worked.block, at, new), change, "{new} at byte {at}");
        }
    }
}

/// The parts that docs/BLOCK.md names: of each area, where its last byte is no longer 0, and of each count, where it is too large.
#[test]
fn the_parts_in_the_document() {
    let [worked, _] = small_blocks();
    let mut parts = vec![];
    for line in include_str!("../../../docs/BLOCK.md").lines() {
        let cells: Vec<&str> = line.split('|').map(str::trim).collect();
        let number = |text: &str| text.replace(',', "").parse::<usize>().ok();
        let (at, part) = match cells[..] {
            ["", bytes, _, _, part, ""] => (bytes.split(" to ").nth(1).and_then(number), number(part)),
            ["", byte, _, part, ""] => (number(byte).map(|byte| byte + 1), number(part)),
            _ => continue,
        };
        let (Some(at), Some(part)) = (at, part.filter(|part| [21, 26, 27].contains(part))) else { continue };
        let mut block = worked.block.clone();
        block[at] = 255;
        assert_eq!(usize::from(answer(&worked, &block)), part, "{line}");
        parts.push(part);
    }
    assert_eq!(parts, [21, 26, 27, 27, 27, 21, 26, 27, 27]);
}

/// Every word of both blocks: no change leads to another answer than its row has, and to each that it has some change does.
#[test]
fn every_word_changed_in_turn() {
    let mut seen: BTreeMap<Change, BTreeSet<u16>> = BTreeMap::new();
    let mut times: BTreeMap<(bool, u16), u32> = BTreeMap::new();
    for small in small_blocks() {
        let outcome = sweep(&small, |block, damage| {
            let number = answer(&small, block);
            *times.entry((damage.beside.is_some(), number)).or_default() += 1;
            if damage.beside.is_none() {
                seen.entry(damage.change).or_default().insert(number);
            }
            match damage.answers().contains(&number) {
                true => Ok(()),
                false => Err(format!("{number} is none of {:?}", damage.answers())),
            }
        });
        assert_eq!(outcome, Ok(()));
    }
    println!("{times:?}");
    assert_eq!(seen.len(), Change::ALL.len());
    for change in Change::ALL {
        let expected = BTreeSet::from_iter(change.answers().iter().copied());
        assert_eq!(seen.get(&change), Some(&expected), "{change:?}");
    }
}

#[test]
fn a_bad_part_besides() {
    let beside = |change: Change| Part::ALL.map(|part| change.answers_beside(part));
    assert_eq!(beside(Change::Class), [vec![21], vec![21, 26], vec![21, 26, 27]]);
    assert_eq!(beside(Change::NoLock), [[21]; 3]);
    assert_eq!(beside(Change::Field), [vec![21], vec![21, 26], vec![21, 27]]);
    assert_eq!(beside(Change::LinkAhead), [[21], [26], [26]]);
    assert_eq!(beside(Change::Thread), [[21], [26], [27]]);
}

#[test]
fn several_words() {
    let [worked, _] = small_blocks();
    let after = |words: &[(usize, u8)]| {
        let mut block = worked.block.clone();
        words.iter().for_each(|&(at, byte)| block[at] = byte);
        (answers(&worked.script, &worked.block, &block), answer(&worked, &block))
    };
    assert_eq!(after(&[]), (vec![0], 0));
    assert_eq!(after(&[(65_534, 1)]), (vec![27], 27));
    assert_eq!(after(&[(13_368, 1)]), (vec![26], 26));
    assert_eq!(after(&[(112, 1)]), (vec![21], 21));
    assert_eq!(after(&[(37_894, 1), (65_534, 1)]), (vec![0, 26, 27], 26)); // both parts are bad
    assert_eq!(after(&[(112, 1), (65_534, 1)]), (vec![0, 21, 27], 21));
    assert_eq!(after(&[(13_362, 7), (13_364, 7)]), (vec![0, 26], 0)); // another number
                                                                      // Object 1 goes, and a field still names it; or only the variable b does.
    assert_eq!(after(&[(0, 1), (60, 0), (62, 0), (70, 0)]), (vec![0, 21, 26, 27], 21));
    assert_eq!(after(&[(0, 1), (12, 0), (14, 0), (60, 0), (62, 0), (70, 0)]), (vec![0, 21, 26, 27], 26));
}
