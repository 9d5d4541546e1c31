//! Damage to a text: most results are no derivations, and their places are all over the text.

use crate::generate::Rng;
use crate::spelling::{any_token, join, Blanks};

#[derive(Clone, Copy, Debug, PartialEq, Eq, PartialOrd, Ord)]
pub enum Damage {
    ByteChanged,
    ByteDeleted,
    ByteInserted,
    TokenDeleted,
    TokenDoubled,
    TokensExchanged,
    TokenReplaced,
    ProductionInserted,
    Cut,
}

impl Damage {
    pub const ALL: [Damage; 9] = [
        Damage::ByteChanged,
        Damage::ByteDeleted,
        Damage::ByteInserted,
        Damage::TokenDeleted,
        Damage::TokenDoubled,
        Damage::TokensExchanged,
        Damage::TokenReplaced,
        Damage::ProductionInserted,
        Damage::Cut,
    ];

    /// Whether it is done to tokens, before the blanks are put between them.
    fn is_to_tokens(self) -> bool {
        ![Damage::ByteChanged, Damage::ByteDeleted, Damage::ByteInserted, Damage::Cut].contains(&self)
    }
}

/// The tokens as a text that is damaged so, once or a few times.
pub fn damaged(mut tokens: Vec<String>, damage: Damage, rng: &mut Rng) -> Vec<u8> {
    let (edits, blanks) = ([1, 1, 1, 2, 3][rng.below(5)], Blanks::random(rng));
    if damage.is_to_tokens() {
        (0..edits).for_each(|_| damage_tokens(&mut tokens, damage, rng));
        return join(&tokens, blanks, rng);
    }
    let mut text = join(&tokens, blanks, rng);
    (0..edits).for_each(|_| damage_bytes(&mut text, damage, rng));
    text
}

fn damage_tokens(tokens: &mut Vec<String>, damage: Damage, rng: &mut Rng) {
    if tokens.is_empty() {
        return;
    }
    let one = rng.below(tokens.len());
    let other = if rng.one_in(2) { rng.below(tokens.len()) } else { (one + 1).min(tokens.len() - 1) };
    match damage {
        Damage::TokenDeleted => drop(tokens.remove(one)),
        Damage::TokenDoubled => tokens.insert(one, tokens[one].clone()),
        Damage::TokenReplaced => tokens[one] = any_token(rng),
        Damage::ProductionInserted => insert_production(tokens, rng),
        _ => tokens.swap(one, other),
    }
}

/// Puts a whole declaration or expression behind a brace or a semicolon, or at an end of the text: mostly where it may not stand.
fn insert_production(tokens: &mut Vec<String>, rng: &mut Rng) {
    const PRODUCTIONS: [&str; 9] = [
        "interface Added { }",
        "interface Added extends Added , Added",
        "class Added implements Added { }",
        "f : Int",
        "m ( x : Int ) : Int",
        "def m ( x : Int ) : Int { null }",
        "null",
        "lock ( x ) in",
        "async { x }",
    ];
    let is_place = |at: &usize| *at == 0 || *at == tokens.len() || ["{", "}", ";"].contains(&tokens[at - 1].as_str());
    let places: Vec<usize> = (0..=tokens.len()).filter(is_place).collect();
    let place = places[rng.below(places.len())];
    let production = PRODUCTIONS[rng.below(PRODUCTIONS.len())];
    tokens.splice(place..place, production.split(' ').map(String::from));
}

fn damage_bytes(text: &mut Vec<u8>, damage: Damage, rng: &mut Rng) {
    let byte = any_byte(rng);
    let at = rng.below(text.len() + 1);
    match damage {
        Damage::ByteInserted => text.insert(at, byte),
        _ if at == text.len() => {}
        Damage::ByteDeleted => drop(text.remove(at)),
        Damage::Cut => text.truncate(at),
        _ => text[at] = byte,
    }
}

/// Often one that stands in texts, or its neighbour in the table of characters.
pub fn any_byte(rng: &mut Rng) -> u8 {
    let known = b"{}():,.=;+-azAZ_09 \t\n\r";
    match rng.below(4) {
        0 | 1 => known[rng.below(known.len())],
        2 => known[rng.below(known.len())].wrapping_add([1, 255, 128][rng.below(3)]),
        _ => rng.bits() as u8,
    }
}
