//! Type numbers, all of them, and words that are none: in a script with as many types as a script may have, a cast from each type to each word; and blocks of that script in which each word is the
//! type of a binding or the class of an object. A word above 255 must not pass for the type in its low byte.

use crate::calls::{agree, Tally};
use crate::check::agreed;
use second::block;
use second::cases::{Case, Origin};
use second::expr::{CAST, NUMBER};
use second::script::Script;
use second::state::{Binding, Object, State, Value};
use second::FLAGS;

const INTERFACES: u16 = 64;
const CLASSES: u16 = 64;
const INT: u16 = INTERFACES + CLASSES + 1;
const LAST_CLASS: u16 = INT - 1;
/// It has a field of the first interface, under which all classes are.
const HOLDER: u16 = INTERFACES + 1;

pub fn compare() -> Result<(), String> {
    let casts = compare_casts()?;
    let blocks = compare_blocks()?;
    println!("casts that fit and that do not: {casts:?}; blocks answered with 0, 21 and 26: {blocks:?}");
    Ok(())
}

/// Every type and the two words behind the last, and each of them with another high byte.
fn words() -> impl Iterator<Item = u16> {
    [0, 1, 2, 127, 128, 255].into_iter().flat_map(|high| (0..=INT + 2).map(move |low| 256 * high + low))
}

/// An interface is a join of those with a half and with a third of its number, the first is a list; the classes have the interfaces from the last down.
fn widest(nodes: &[[u16; 4]]) -> Vec<u8> {
    let join = |ty: u16| [1, ty / 2, (ty / 3).max(1)];
    let class = |index: u16| [INTERFACES - index, u16::from(index == 0), 0];
    Script {
        interfaces: [[0; 3]].into_iter().chain((2..=INTERFACES).map(join)).collect(),
        classes: (0..CLASSES).map(class).collect(),
        fields: vec![[0, 1]],
        nodes: nodes.to_vec(),
        ..Script::default()
    }
    .encode()
}

/// (word)(ty)null, or (word)1 where the type is Int.
fn cast(ty: u16, word: u16) -> Vec<u8> {
    match ty {
        INT => widest(&[[CAST, word, 1, 0], [NUMBER, 1, 0, 0]]),
        _ => widest(&[[CAST, word, 1, 0], [CAST, ty, 2, 0], [0; 4]]),
    }
}

fn compare_casts() -> Result<[u64; 2], String> {
    let mut seen = [0; 2];
    for (ty, word) in (0..=INT).flat_map(|ty| words().map(move |word| (ty, word))) {
        let number = agreed(&cast(ty, word))?.number;
        match (number, word > INT) {
            (0, false) => seen[0] += 1,
            (14, false) => seen[1] += 1,
            (6, true) => {}
            _ => return Err(format!("a cast of type {ty} to {word} gets {number}")),
        }
    }
    all(seen)
}

/// The word as the type of a binding with a value of each kind, and as the class of an object that another one's field holds; and what may be answered.
fn states(word: u16) -> Vec<(State, Vec<u16>)> {
    let holder = Object { class: HOLDER, shut: false, fields: vec![Value::Object(1)] };
    let objects = |class| vec![holder.clone(), Object { class, shut: false, fields: vec![] }];
    let values = [Value::Null, Value::Object(0), Value::Object(1), Value::Number(7)];
    let bound = values.map(|value| Binding { name: 2, ty: word, value, beneath: None });
    let bound =
        bound.map(|binding| State { objects: objects(LAST_CLASS), bindings: vec![binding], ..State::initial() });
    let of_bound = if word > INT { vec![26] } else { vec![0, 26] };
    let of_class = if (HOLDER..=LAST_CLASS).contains(&word) { vec![0] } else { vec![21] };
    let made = State { objects: objects(word), ..State::initial() };
    bound.into_iter().map(|state| (state, of_bound.clone())).chain([(made, of_class)]).collect()
}

/// How often each answer of Offer came up.
fn compare_blocks() -> Result<[u64; 3], String> {
    let script = cast(1, 1);
    let mut tally = Tally::default();
    for (word, (state, answers)) in words().flat_map(|word| states(word).into_iter().map(move |made| (word, made))) {
        let (block, flags) = (block::write(&state), vec![7; FLAGS]);
        let (script, answers) = (script.clone(), Some(answers));
        let case = Case { script, block, choices: vec![0], flags, origin: Origin::Made, answers };
        agree(&case, &mut tally).map_err(|message| format!("a block with the type {word}: {message}"))?;
    }
    all([0, 21, 26].map(|number| tally.times("Offer", number)))
}

/// Each answer came up.
fn all<const N: usize>(seen: [u64; N]) -> Result<[u64; N], String> {
    match seen.contains(&0) {
        true => Err(format!("one answer never came up: {seen:?}")),
        false => Ok(seen),
    }
}
