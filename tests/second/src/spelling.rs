//! Names and blanks for texts that are made: spellings that could be taken for each other, and tokens put together with many blanks, few or none.

use crate::generate::Rng;
use crate::text::tokens::{SIGNS, WORDS};

/// Names that begin with a word of the grammar, or are one but for the case of a letter, and short ones.
const NAMES: [&str; 40] = [
    "a",
    "b",
    "c",
    "n",
    "x",
    "y",
    "T",
    "I",
    "C",
    "m",
    "f",
    "_",
    "__",
    "_1",
    "a1",
    "A",
    "tmp",
    "Cell",
    "letx",
    "let_",
    "Let",
    "inn",
    "IN",
    "int",
    "unit",
    "Units",
    "Int32",
    "nulls",
    "null_",
    "news",
    "locked",
    "lock1",
    "asyncs",
    "finishes",
    "define",
    "thisx",
    "this_",
    "This",
    "classes",
    "interfaces",
];

/// Any name. The more often none was new, the longer it gets.
pub fn any_name(rng: &mut Rng, tries: u32) -> String {
    let mut name = String::from(NAMES[rng.below(NAMES.len())]);
    if tries > 0 || rng.one_in(6) {
        name += &rng.below(10usize.pow(tries.min(6))).to_string();
    }
    name
}

/// A name that is not among these.
pub fn new_name(rng: &mut Rng, is_taken: impl Fn(&str) -> bool) -> String {
    (0..)
        .map(|tries| any_name(rng, tries))
        .find(|name| !is_taken(name))
        .expect("there are more names than any text has")
}

/// Any token; often `this`, which may stand where many names may.
pub fn any_token(rng: &mut Rng) -> String {
    match rng.below(6) {
        0 => char::from(SIGNS[rng.below(SIGNS.len())]).into(),
        1 => any_name(rng, 0),
        2 => rng.below(100).to_string(),
        3 => "this".into(),
        _ => WORDS[rng.below(WORDS.len())].into(),
    }
}

/// What stands between two tokens.
#[derive(Clone, Copy, Debug, PartialEq, Eq)]
pub enum Blanks {
    /// None where none is needed.
    Fewest,
    One,
    /// Any number of any of the four, or none.
    Any,
}

impl Blanks {
    pub fn random(rng: &mut Rng) -> Blanks {
        [Blanks::Fewest, Blanks::One, Blanks::Any][rng.below(3)]
    }
}

/// The tokens as a text in which each of them stays one.
pub fn join(tokens: &[String], blanks: Blanks, rng: &mut Rng) -> Vec<u8> {
    let mut text = vec![];
    let mut previous = "";
    for token in tokens {
        let between = match blanks {
            Blanks::Fewest => 0,
            Blanks::One => usize::from(!text.is_empty()),
            Blanks::Any => [0, 0, 1, 1, 2, 3][rng.below(6)],
        };
        let needed = usize::from(would_merge(previous, token));
        text.extend((0..between.max(needed)).map(|_| any_blank(blanks, rng)));
        text.extend(token.bytes());
        previous = token;
    }
    if blanks == Blanks::Any {
        text.extend((0..rng.below(3)).map(|_| any_blank(blanks, rng)));
    }
    text
}

fn any_blank(blanks: Blanks, rng: &mut Rng) -> u8 {
    match blanks {
        Blanks::Any => [9, 10, 13, 32][rng.below(4)],
        Blanks::Fewest | Blanks::One => b' ',
    }
}

/// Whether the second token right behind the first would go on with it: a word goes on with letters and digits, a number with digits.
fn would_merge(first: &str, second: &str) -> bool {
    let begins = |token: &str, holds: fn(u8) -> bool| token.bytes().next().is_some_and(holds);
    let is_letter = |byte: u8| byte.is_ascii_alphabetic() || byte == b'_';
    let is_digit = |byte: u8| byte.is_ascii_digit();
    (begins(first, is_letter) && (begins(second, is_letter) || begins(second, is_digit)))
        || (begins(first, is_digit) && begins(second, is_digit))
}
