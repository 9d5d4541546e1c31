//! A block kept byte for byte: rows of zeros are counted, and all else stands as it is.

use super::coding::{put_number, Coded};

/// So many zeros in a row are worth a count.
const WORTH: usize = 4;

/// The bytes of a block: how many zeros, how many other bytes, these bytes, and so on.
pub fn code(block: &[u8]) -> Vec<u8> {
    let mut string = Vec::new();
    let mut at = 0;
    while let Some(begin) = next_nonzero(block, at) {
        let end = end_of(block, begin);
        put_number(&mut string, (begin - at) as u64);
        put_number(&mut string, (end - begin) as u64);
        string.extend_from_slice(&block[begin..end]);
        at = end;
    }
    string
}

/// Writes the bytes back over a block of zeros.
pub fn decode(string: &[u8], block: &mut [u8]) {
    let mut coded = Coded(string);
    let mut at = 0;
    while !coded.is_empty() {
        at += coded.number();
        let count = coded.number();
        let (bytes, rest) = coded.0.split_at(count);
        block[at..at + count].copy_from_slice(bytes);
        coded.0 = rest;
        at += count;
    }
}

fn next_nonzero(block: &[u8], from: usize) -> Option<usize> {
    let (words, _) = block[from..].as_chunks::<16>();
    let skipped = 16 * words.iter().take_while(|word| **word == [0; 16]).count();
    block[from + skipped..].iter().position(|&byte| byte != 0).map(|found| from + skipped + found)
}

/// Where a row of bytes ends that has no long row of zeros in it.
fn end_of(block: &[u8], begin: usize) -> usize {
    let mut end = begin;
    while let Some(step) = block[end..].iter().take(WORTH + 1).position(|&byte| byte != 0) {
        end += step + 1;
    }
    end
}
