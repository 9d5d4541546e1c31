//! A set of byte strings, numbered by first appearance: the states of a search, and the pieces that they are made of.

use std::ops::Range;

/// No number: an empty place of the table.
const EMPTY: u32 = u32::MAX;

/// All strings lie in one row of bytes; the table finds a string's number by its hash. Strings are compared byte by byte, so a hash that two share costs time and nothing else.
pub struct ByteSet {
    bytes: Vec<u8>,
    ends: Vec<u64>,
    table: Vec<u32>,
}

fn hash(bytes: &[u8]) -> u64 {
    let mix = |hash: u64, word: u64| (hash.rotate_left(5) ^ word).wrapping_mul(0x517C_C1B7_2722_0A95);
    let (words, rest) = bytes.as_chunks::<8>();
    let whole = words.iter().fold(bytes.len() as u64, |hash, word| mix(hash, u64::from_le_bytes(*word)));
    let hash = rest.iter().fold(whole, |hash, &byte| mix(hash, u64::from(byte)));
    hash ^ (hash >> 32)
}

impl ByteSet {
    pub fn new() -> ByteSet {
        ByteSet { bytes: Vec::new(), ends: Vec::new(), table: vec![EMPTY; 64] }
    }

    pub fn len(&self) -> usize {
        self.ends.len()
    }

    /// Bytes of memory that the set has asked for.
    pub fn memory(&self) -> usize {
        self.bytes.capacity() + 8 * self.ends.capacity() + 4 * self.table.capacity()
    }

    fn range(&self, number: usize) -> Range<usize> {
        let begin = number.checked_sub(1).map_or(0, |before| self.ends[before]);
        begin as usize..self.ends[number] as usize
    }

    pub fn get(&self, number: usize) -> &[u8] {
        &self.bytes[self.range(number)]
    }

    /// Where the string stands in the table, or the empty place where it would.
    fn place(&self, string: &[u8]) -> usize {
        let mask = self.table.len() - 1;
        let mut at = hash(string) as usize & mask;
        while self.table[at] != EMPTY && self.get(self.table[at] as usize) != string {
            at = (at + 1) & mask;
        }
        at
    }

    pub fn contains(&self, string: &[u8]) -> bool {
        self.table[self.place(string)] != EMPTY
    }

    /// The string's number, and whether it is new. None if there is no memory for it.
    pub fn insert(&mut self, string: &[u8]) -> Option<(usize, bool)> {
        let at = self.place(string);
        if self.table[at] != EMPTY {
            return Some((self.table[at] as usize, false));
        }
        self.bytes.try_reserve(string.len()).ok()?;
        self.ends.try_reserve(1).ok()?;
        if 4 * (self.len() + 1) > 3 * self.table.len() {
            self.grow()?;
        }
        let (number, at) = (self.len(), self.place(string));
        self.table[at] = number as u32;
        self.bytes.extend_from_slice(string);
        self.ends.push(self.bytes.len() as u64);
        Some((number, true))
    }

    /// A table twice as long.
    fn grow(&mut self) -> Option<()> {
        let mut table = Vec::new();
        table.try_reserve_exact(2 * self.table.len()).ok()?;
        table.resize(2 * self.table.len(), EMPTY);
        self.table = table;
        for number in 0..self.len() {
            let at = self.place(self.get(number));
            self.table[at] = number as u32;
        }
        Some(())
    }
}
