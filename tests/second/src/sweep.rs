//! Two small well-formed blocks, and every word of each changed in turn.

use crate::block;
use crate::damage::{set_word, word};
use crate::parts::{change_at, Change, Part};
use crate::script::Script;
use crate::state::{Binding, Closure, Focus, Frame, Object, State, Tree, Value};

/// A script and a well-formed block of it, with choices that lead on from it.
pub struct Small {
    pub name: &'static str,
    pub script: Vec<u8>,
    pub block: Vec<u8>,
    pub choices: &'static [u8],
}

/// The block in the middle of a run that docs/BLOCK.md shows, with two objects, four bindings, a join and two lock
/// frames; and one that no run leads to.
pub fn small_blocks() -> [Small; 2] {
    let script = worked_script();
    let mut worked = vec![0; block::LENGTH];
    let started = crate::start(&script, &mut worked);
    let ran = crate::run(&script, &mut worked, &WORKED_CHOICES);
    assert_eq!((started.number, ran.number, ran.moves), (0, 0, 20));
    [
        Small { name: "the worked block", script, block: worked, choices: &[1, 0, 2, 1, 2, 0, 1, 2, 0, 0] },
        Small {
            name: "the made block",
            script: made_script().encode(),
            block: block::write(&made_state()),
            choices: &[1, 3, 2, 1],
        },
    ]
}

const WORKED_CHOICES: [u8; 20] = [0, 0, 0, 0, 0, 0, 0, 0, 0, 0, 0, 0, 0, 0, 0, 0, 1, 1, 1, 2];

/// The words of the sample, without its notes.
fn worked_script() -> Vec<u8> {
    let sample = include_str!("../../../samples/accept-middle.words");
    let words = sample.lines().filter_map(|line| line.split('#').next()).flat_map(str::split_whitespace);
    words.flat_map(|word| word.parse::<u16>().expect("a word of the sample").to_le_bytes()).collect()
}

const I: u16 = 1;
const C: u16 = 2;
const D: u16 = 3;
const X: u16 = 2;
const F: u16 = 7;
const TO_D: u16 = 4;
const TO_UNIT: u16 = 6;
const READ: u16 = 8;

/// C has a field f: D, and D a field f: I. The start is let x = new C in lock x in fork{(D)null}{(Unit)null}; x.f.
fn made_script() -> Script {
    Script {
        interfaces: vec![[0, 0, 0]],
        classes: vec![[I, 1, 0], [I, 1, 0]],
        fields: vec![[F, D], [F, I]],
        nodes: vec![
            [5, X, 1, 2],
            [6, C, 0, 0],
            [9, X, 3, 0],
            [8, TO_D, TO_UNIT, READ],
            [7, D, 5, 0],
            [0; 4],
            [7, 0, 7, 0],
            [0; 4],
            [2, X, F, 0],
        ],
        ..Script::default()
    }
}

/// Of the objects the first is held by x and by a lock frame, the second by the first one's field, the third by a thread that waits at a cast, and the last by nobody; a failed thread lets any be
/// shut. The last binding is all zeros, and a thread stands under it.
fn made_state() -> State {
    let object = |class, shut, field| Object { class, shut, fields: vec![field] };
    let at = |node, environment| Closure { node, environment };
    let waits = Tree { frames: vec![Frame::Cast { node: TO_D }], focus: Focus::Value(Value::Object(2)) };
    let inner = [Tree::new(Focus::Node(at(TO_UNIT, Some(2)))), Tree::new(Focus::Failed)];
    let right = Tree::new(Focus::Join { last: at(TO_UNIT, None), sides: Box::new(inner) });
    State {
        objects: vec![
            object(C, true, Value::Object(1)),
            object(D, false, Value::Null),
            object(D, false, Value::Null),
            object(D, false, Value::Null),
        ],
        bindings: vec![
            Binding { name: X, ty: C, value: Value::Object(0), beneath: None },
            Binding { name: 3, ty: 0, value: Value::Null, beneath: Some(0) },
            Binding { name: 0, ty: 0, value: Value::Null, beneath: None },
        ],
        tree: Tree {
            frames: vec![Frame::Lock { object: 0 }],
            focus: Focus::Join { last: at(READ, Some(1)), sides: Box::new([waits, right]) },
        },
    }
}

/// What the word at this byte becomes: numbers beside the old one, small ones and the largest; where it has a meaning, also
/// numbers around the limits.
fn new_words(small: &Small, at: usize) -> Vec<u16> {
    let old = word(&small.block, at);
    let mut new = vec![old.wrapping_add(1), old.wrapping_sub(1), 0, 1, 2, 3, u16::MAX];
    if !matches!(change_at(&small.script, &small.block, at, old), Change::Unused(_)) {
        new.extend(4..=20);
        new.extend([63, 64, 127, 128, 129, 130, 255, 256, 257, 258, 2_047, 2_048, 2_049, 32_768]);
    }
    new.sort();
    new.dedup();
    new.retain(|&word| word != old);
    new
}

/// What is wrong with a block that is shown.
#[derive(Clone, Copy, Debug)]
pub struct Damage {
    pub change: Change,
    /// A part that is bad besides.
    pub beside: Option<Part>,
}

impl Damage {
    /// What may be answered.
    pub fn answers(self) -> Vec<u16> {
        match self.beside {
            Some(part) => self.change.answers_beside(part),
            None => self.change.answers().to_vec(),
        }
    }
}

/// Shows the block with each change, one at a time; where the word has a meaning, also with each part bad besides. Ends at the
/// first message.
pub fn sweep(small: &Small, mut show: impl FnMut(&[u8], Damage) -> Result<(), String>) -> Result<(), String> {
    let mut block = small.block.clone();
    for at in (0..block.len()).step_by(2) {
        for new in new_words(small, at) {
            set_word(&mut block, at, new);
            let change = change_at(&small.script, &small.block, at, new);
            show_damage(&mut block, change, &mut show)
                .map_err(|message| format!("{}, {new} at byte {at}, {message}", small.name))?;
        }
        set_word(&mut block, at, word(&small.block, at));
    }
    Ok(())
}

/// A part is made bad by its last byte, which has no meaning in these blocks.
fn show_damage(
    block: &mut [u8],
    change: Change,
    show: &mut impl FnMut(&[u8], Damage) -> Result<(), String>,
) -> Result<(), String> {
    let mut show = |block: &[u8], beside| {
        let damage = Damage { change, beside };
        show(block, damage).map_err(|message| format!("{damage:?}: {message}"))
    };
    show(block, None)?;
    if matches!(change, Change::Unused(_)) {
        return Ok(());
    }
    for part in Part::ALL {
        let old = std::mem::replace(&mut block[part.last_byte()], 255);
        show(block, Some(part))?;
        block[part.last_byte()] = old;
    }
    Ok(())
}
