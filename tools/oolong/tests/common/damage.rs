//! Damage to bytes.

use super::dice::Dice;

/// Bytes with one to three changes; some changes take from others.
pub fn damaged(dice: &mut Dice, bytes: &[u8], others: &[u8]) -> Vec<u8> {
    let mut made = bytes.to_vec();
    for _ in 0..1 + dice.weighed(&[60, 25, 15]) {
        change(dice, &mut made, others);
    }
    made
}

fn change(dice: &mut Dice, bytes: &mut Vec<u8>, others: &[u8]) {
    let at = dice.below(bytes.len() + 1);
    let (begin, end) = range(dice, bytes.len());
    match dice.weighed(&[30, 12, 14, 10, 8, 8, 8, 6, 4]) {
        0 if at < bytes.len() => bytes[at] = dice.next() as u8,
        1 if at < bytes.len() => bytes[at] ^= 1 << dice.below(8),
        2 => word(dice, bytes, at),
        3 => bytes.truncate(at),
        4 => drop(bytes.drain(begin..end)),
        5 => {
            let part = bytes[begin..end].to_vec();
            bytes.splice(at..at, part);
        }
        6 => {
            let (from, to) = range(dice, others.len());
            bytes.splice(begin..end, others[from..to].to_vec());
        }
        7 => {
            let tail = others[dice.below(others.len() + 1)..].to_vec();
            bytes.truncate(at);
            bytes.extend(tail);
        }
        _ => {
            let noise: Vec<u8> = (0..dice.below(9)).map(|_| dice.next() as u8).collect();
            bytes.splice(at..at, noise);
        }
    }
}

/// A word of the file becomes one that is near a limit or near what it was.
fn word(dice: &mut Dice, bytes: &mut [u8], at: usize) {
    let Some(pair) = bytes.get_mut(at & !1..(at & !1) + 2) else { return };
    let old = u16::from_le_bytes([pair[0], pair[1]]);
    let near = [old.wrapping_add(1), old.wrapping_sub(1), 0, 1, 2, 3, 65_535, 256, 2_048, 63];
    pair.copy_from_slice(&dice.pick(&near).to_le_bytes());
}

/// A short range.
fn range(dice: &mut Dice, length: usize) -> (usize, usize) {
    let begin = dice.below(length + 1);
    let most = if dice.percent(80) { 12 } else { length };
    (begin, (begin + dice.below(most + 1)).min(length))
}

pub fn noise(dice: &mut Dice) -> Vec<u8> {
    let most = *dice.pick(&[1, 30, 300, 14_000]);
    let wanted = *dice.pick(&[0, 1, 23, 24, 32, most]);
    (0..wanted).map(|_| dice.next() as u8).collect()
}
