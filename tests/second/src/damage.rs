//! Random damage to a script: most results are refused, each question having its share.

use crate::expr::{CAST, NEW, NUMBER, SUM};
use crate::generate::Rng;
use crate::script::{CONTENTS, WIDTHS};
use std::ops::Range;

/// One to three random edits.
pub fn damage(script: &[u8], rng: &mut Rng) -> Vec<u8> {
    let mut script = script.to_vec();
    for _ in 0..[1, 1, 1, 2, 3][rng.below(5)] {
        edit(&mut script, rng);
    }
    script
}

fn edit(script: &mut Vec<u8>, rng: &mut Rng) {
    match rng.below(48) {
        0 => edit_byte(script, rng),
        1 => edit_length(script, rng),
        2 => edit_contents(script, rng),
        3..=7 => {
            let at = 2 * rng.below(script.len() / 2);
            edit_word(script, rng, at);
        }
        8..=22 => {
            // Of a random section first, so that the short ones are met as often as the nodes.
            if let Some(record) = some_record(script, rng, 0..6) {
                let at = record.start + 2 * rng.below(record.len() / 2);
                edit_word(script, rng, at);
            }
        }
        23..=36 => edit_node(script, rng),
        37 => move_records(script, rng),
        38 | 39 => insert_or_remove(script, rng),
        40..=43 => edit_type(script, rng),
        _ => edit_kind(script, rng),
    }
}

/// Any bits of a byte change, or one.
pub(crate) fn edit_byte(script: &mut [u8], rng: &mut Rng) {
    let bits = if rng.one_in(2) { rng.bits() as u8 } else { 1 << rng.below(8) };
    if let Some(byte) = script.get_mut(rng.below(script.len())) {
        *byte ^= bits;
    }
}

/// A cut or an extension.
fn edit_length(script: &mut Vec<u8>, rng: &mut Rng) {
    let most = [1, 2, 8, 16_384][rng.below(4)];
    let by = 1 + rng.below(most);
    let length = if rng.one_in(2) { script.len().saturating_sub(by) } else { script.len() + by };
    script.resize(length, rng.bits() as u8);
}

/// A count off by one, or an offset by a little; nothing else moves.
fn edit_contents(script: &mut [u8], rng: &mut Rng) {
    let entry = 2 * rng.below(12);
    let by = if entry % 4 == 2 { 1 } else { [1, 4, 6, 8][rng.below(4)] };
    let old = word(script, entry);
    set_word(script, entry, if rng.one_in(2) { old.wrapping_add(by) } else { old.wrapping_sub(by) });
}

/// A word gets a new value: any, one near it, or that of another word, which may get the old one.
fn edit_word(script: &mut [u8], rng: &mut Rng, at: usize) {
    let other = 2 * rng.below(script.len() / 2);
    let (old, new) = (word(script, at), word(script, other));
    match rng.below(5) {
        0 => set_word(script, at, rng.word()),
        1 => set_word(script, at, old.wrapping_add(1)),
        2 => set_word(script, at, old.wrapping_sub(1)),
        3 => set_word(script, at, new),
        _ => {
            set_word(script, at, new);
            set_word(script, other, old);
        }
    }
}

/// An edit to a node that leaves question 7 its yes, so that questions 11 to 15 are reached.
fn edit_node(script: &mut [u8], rng: &mut Rng) {
    let (Some(node), Some(model)) = (some_record(script, rng, 5..6), some_record(script, rng, 5..6)) else {
        return;
    };
    let is_leaf = |node: &Range<usize>| [0, 1, 2, NEW, NUMBER, SUM].contains(&word(script, node.start));
    let [a, b, c] = [2, 4, 6].map(|at| node.start + at);
    let small = rng.below(9) as u16;
    match word(script, node.start) {
        _ if is_leaf(&node) && is_leaf(&model) => script.copy_within(model, node.start),
        2..=4 if rng.one_in(2) => set_word(script, b, small),
        kind @ (5 | 8) if rng.one_in(2) => {
            let part = if kind == 5 { b } else { a };
            let (first, last) = (word(script, part), word(script, c));
            set_word(script, part, last);
            set_word(script, c, first);
        }
        SUM if rng.one_in(2) => set_word(script, b, small),
        1..=7 | 9 | SUM => set_word(script, a, small),
        _ => {}
    }
}

/// A type word becomes one of the last types, a class, Int or the number behind it, or Unit.
fn edit_type(script: &mut [u8], rng: &mut Rng) {
    let section = 1 + rng.below(5);
    let record = match section {
        5 => {
            let kind = [NEW, CAST][rng.below(2)];
            some_node(script, rng, kind)
        }
        _ => some_record(script, rng, section..section + 1),
    };
    let columns: &[usize] = match section {
        1 | 4 => &[1, 2],
        2 => &[0],
        _ => &[1],
    };
    let (Some(record), Some(column)) = (record, rng.pick(columns)) else {
        return;
    };
    let int = word(script, 2).wrapping_add(word(script, 10)).wrapping_add(1); // I+C+1
    let new = [int.wrapping_sub(1), int, int, int.wrapping_add(1), 0][rng.below(5)];
    set_word(script, record.start + 2 * column, new);
}

/// A node's kind becomes a constant's, a sum's or one past it, or such a node's last word is no longer 0.
fn edit_kind(script: &mut [u8], rng: &mut Rng) {
    let kind = [NUMBER, SUM][rng.below(2)];
    let (Some(node), number) = (some_record(script, rng, 5..6), some_node(script, rng, kind)) else {
        return;
    };
    let small = rng.below(9) as u16;
    match (rng.below(4), number) {
        (0, _) => set_word(script, node.start, [NUMBER, SUM, SUM + 1][rng.below(3)]),
        (1, Some(number)) => set_word(script, number.start + 6, 1 + small),
        // In order by itself, but parts that it had are then used by nobody.
        _ => {
            let words = [[NUMBER, rng.word(), rng.word(), 0], [SUM, small, rng.below(4) as u16, 0]][rng.below(2)];
            for (index, word) in words.into_iter().enumerate() {
                set_word(script, node.start + 2 * index, word);
            }
        }
    }
}

/// A node of this kind, if one is met in a few tries.
fn some_node(script: &[u8], rng: &mut Rng, kind: u16) -> Option<Range<usize>> {
    let mut tries = (0..16).filter_map(|_| some_record(script, rng, 5..6));
    tries.find(|node| word(script, node.start) == kind)
}

/// Two records of a section change places, or one takes the other's.
fn move_records(script: &mut [u8], rng: &mut Rng) {
    let section = rng.below(6);
    let mut record = || some_record(script, rng, section..section + 1);
    let (Some(one), Some(other)) = (record(), record()) else {
        return;
    };
    let kept = script[one.clone()].to_vec();
    script.copy_within(other.clone(), one.start);
    if rng.one_in(2) {
        script[other].copy_from_slice(&kept);
    }
}

/// A record more or less, with its count; the offsets behind it move, or are left as they were.
fn insert_or_remove(script: &mut Vec<u8>, rng: &mut Rng) {
    let section = rng.below(6);
    let Some(record) = some_record(script, rng, section..section + 1) else {
        return;
    };
    let (more, width) = (rng.one_in(2), record.len() as u16);
    if more {
        let copy = script[record.clone()].to_vec();
        script.splice(record.start..record.start, copy);
    } else {
        script.drain(record);
    }
    let mut add = |at: usize, by: u16| {
        let old = word(script, at);
        set_word(script, at, if more { old.wrapping_add(by) } else { old.wrapping_sub(by) });
    };
    add(4 * section + 2, 1);
    if !rng.one_in(8) {
        (section + 1..6).for_each(|later| add(4 * later, width));
    }
}

/// A random record that lies in the file, of a random section among these.
fn some_record(script: &[u8], rng: &mut Rng, sections: Range<usize>) -> Option<Range<usize>> {
    let filled: Vec<usize> = sections.filter(|&section| word(script, 4 * section + 2) > 0).collect();
    let section = rng.pick(&filled)?;
    let (offset, count) = (word(script, 4 * section) as usize, word(script, 4 * section + 2) as usize);
    let width = 2 * WIDTHS[section];
    let start = offset + rng.below(count) * width;
    (start >= CONTENTS && start + width <= script.len()).then_some(start..start + width)
}

pub(crate) fn word(script: &[u8], at: usize) -> u16 {
    script.get(at..at + 2).map_or(0, |pair| u16::from_le_bytes([pair[0], pair[1]]))
}

pub(crate) fn set_word(script: &mut [u8], at: usize, word: u16) {
    if let Some(pair) = script.get_mut(at..at + 2) {
        pair.copy_from_slice(&word.to_le_bytes());
    }
}
