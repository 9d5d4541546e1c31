//! Names by their spelling.

use std::collections::HashMap;
use std::hash::{BuildHasherDefault, Hasher};

/// FNV-1a: names are short, and nobody gains by making them collide.
pub struct Fnv(u64);

impl Default for Fnv {
    fn default() -> Fnv {
        Fnv(0xcbf2_9ce4_8422_2325)
    }
}

impl Hasher for Fnv {
    fn write(&mut self, bytes: &[u8]) {
        for &byte in bytes {
            self.0 = (self.0 ^ u64::from(byte)).wrapping_mul(0x100_0000_01b3);
        }
    }

    fn write_usize(&mut self, length: usize) {
        self.0 ^= length as u64;
    }

    fn finish(&self) -> u64 {
        self.0
    }
}

type Map<'t> = HashMap<&'t [u8], u16, BuildHasherDefault<Fnv>>;

/// Names numbered by first appearance from 0.
#[derive(Default)]
pub struct Names<'t>(Map<'t>);

impl<'t> Names<'t> {
    pub fn number(&mut self, spelling: &'t [u8]) -> u16 {
        let next = self.0.len() as u16;
        *self.0.entry(spelling).or_insert(next)
    }
}

/// Type words before all declarations are known: Unit, Int, and by first appearance the others.
pub const UNIT: u16 = 0;
pub const INT: u16 = u16::MAX;
const FIRST: u16 = 1;

/// No place: places are at most 65,536.
const NOWHERE: u32 = u32::MAX;

/// What is known of a type's name.
struct Known {
    /// Its number, 0 if it is not declared yet.
    number: u16,
    first_use: u32,
}

#[derive(Default)]
pub struct Types<'t> {
    names: Names<'t>,
    known: Vec<Known>,
    declared: u16,
    again: Option<u32>,
}

impl<'t> Types<'t> {
    fn known(&mut self, spelling: &'t [u8]) -> (u16, &mut Known) {
        let index = self.names.number(spelling);
        if usize::from(index) == self.known.len() {
            self.known.push(Known { number: 0, first_use: NOWHERE });
        }
        (index, &mut self.known[usize::from(index)])
    }

    pub fn declare(&mut self, spelling: &'t [u8], place: u32) {
        self.declared += 1;
        let number = self.declared;
        let (_, known) = self.known(spelling);
        if known.number == 0 {
            known.number = number;
        } else {
            self.again.get_or_insert(place);
        }
    }

    /// The word of a type that is used here.
    pub fn used(&mut self, spelling: &'t [u8], place: u32) -> u16 {
        let (index, known) = self.known(spelling);
        known.first_use = known.first_use.min(place);
        FIRST + index
    }

    /// The first name that is declared nowhere or again.
    pub fn fault(&self) -> Option<u32> {
        let nowhere = self.known.iter().filter(|known| known.number == 0).map(|known| known.first_use);
        nowhere.chain(self.again).min()
    }

    pub fn int(&self) -> u16 {
        self.declared + 1
    }

    /// The file's number of a type word.
    pub fn number(&self, word: u16, int: u16) -> u16 {
        match word {
            UNIT => 0,
            INT => int,
            _ => self.known[usize::from(word - FIRST)].number,
        }
    }
}
