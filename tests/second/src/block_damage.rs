//! Random damage to a state block. Unlike damage to a script it often leaves a block that is
//! still well formed, so each kind of edit is named and a test can count what became of it.
//! Each says what it may lead to, and `parts` says it of the words that it has changed.

use crate::block::{value_words, Area};
use crate::damage::{edit_byte, set_word, word};
use crate::generate::Rng;
use crate::state::Value;
use crate::types::Type;
use std::ops::Range;

#[derive(Clone, Copy, Debug, PartialEq, Eq, PartialOrd, Ord)]
pub enum Edit {
    /// Any byte of the block, or of a record in use.
    Byte,
    /// A count of the header off by one.
    Count(Area),
    /// One word of a record in use gets a new value.
    Word { area: Area, column: usize },
    /// A value becomes another, or one of its three words does.
    Value { area: Area, damage: ValueDamage },
    /// The class of an object or the type of a binding becomes another, often one of the last numbers: a class, Int, no type.
    Type(Area),
    /// The class of an object or the type of a binding gets another high byte, which no type has.
    HighByte(Area),
    /// An object is shut that was open, or the other way round, or it is neither.
    Lock,
    /// Two records of an area exchange a word, or all words.
    Exchange(Area),
    /// A record goes or comes twice, with its count.
    Record(Area),
    /// A position or frame gets the node and environment of another.
    Closure,
    /// A position becomes a thread of another kind, with the frames it has.
    Focus,
    /// A word behind the records of an area is no longer 0.
    Unused(Area),
    /// A word behind the areas is no longer 0.
    Rest,
}

impl Edit {
    /// What may be answered about a block that was well formed before it, by the area that it keeps to.
    pub fn answers(self) -> &'static [u16] {
        match self {
            Edit::Byte => &[0, 21, 26, 27],
            Edit::Lock => &[0, 21, 27],
            Edit::Count(Area::Objects) | Edit::HighByte(Area::Objects) | Edit::Unused(Area::Objects) => &[21],
            Edit::HighByte(_) | Edit::Unused(Area::Bindings) => &[26],
            Edit::Count(Area::Positions | Area::Frames) | Edit::Record(Area::Positions | Area::Frames) => &[27],
            Edit::Unused(_) | Edit::Rest => &[27],
            Edit::Closure | Edit::Focus => &[0, 27],
            Edit::Value { area, damage } => match (area, damage) {
                (Area::Objects, ValueDamage::Kind) => &[21],
                (Area::Objects, _) => &[0, 21],
                (Area::Bindings, ValueDamage::Kind) => &[26],
                (Area::Bindings, _) => &[0, 26],
                (_, ValueDamage::Kind) => &[27],
                _ => &[0, 27],
            },
            Edit::Count(area) | Edit::Word { area, .. } | Edit::Type(area) => within(area),
            Edit::Exchange(area) | Edit::Record(area) => within(area),
        }
    }
}

/// What damage to an area may lead to: other parts see what its records are, but no earlier one does.
fn within(area: Area) -> &'static [u16] {
    match area {
        Area::Objects => &[0, 21, 26, 27],
        Area::Bindings => &[0, 26, 27],
        Area::Positions | Area::Frames => &[0, 27],
    }
}

/// What a value becomes.
#[derive(Clone, Copy, Debug, PartialEq, Eq, PartialOrd, Ord)]
pub enum ValueDamage {
    Null,
    /// An object that is there, or one past the count.
    Object,
    Number,
    /// The first word is 3 or more.
    Kind,
    /// This one of the three words is another.
    Word(usize),
}

impl ValueDamage {
    pub const ALL: [ValueDamage; 7] = [
        ValueDamage::Null,
        ValueDamage::Object,
        ValueDamage::Number,
        ValueDamage::Kind,
        ValueDamage::Word(0),
        ValueDamage::Word(1),
        ValueDamage::Word(2),
    ];
}

/// A random edit of a block whose script has this type as its last, Int. It is not made where the block has no record for it.
pub fn damage(block: &mut [u8], int: Type, rng: &mut Rng) -> Option<Edit> {
    let edit = some_edit(rng)?;
    match edit {
        Edit::Byte => change_byte(block, rng)?,
        Edit::Count(area) => add(block, area.count_at(), if rng.one_in(2) { 1 } else { u16::MAX }),
        Edit::Word { area, column } => {
            let record = some_record(block, area, rng)?;
            change_word(block, area, record.start + 2 * column, column, rng)?;
        }
        Edit::Value { area, damage } => change_value(block, area, damage, rng)?,
        Edit::Type(area) => change_type(block, area, int, rng)?,
        Edit::HighByte(area) => change_high_byte(block, area, rng)?,
        Edit::Lock => change_lock(block, rng)?,
        Edit::Exchange(area) => exchange(block, area, rng)?,
        Edit::Record(area) => remove_or_repeat(block, area, rng)?,
        Edit::Closure => copy_closure(block, rng)?,
        Edit::Focus => change_focus(block, rng)?,
        Edit::Unused(area) => fill(block, used(block, area).end..area.bytes().end, rng)?,
        Edit::Rest => fill(block, Area::Frames.bytes().end..block.len(), rng)?,
    }
    Some(edit)
}

fn some_edit(rng: &mut Rng) -> Option<Edit> {
    let area = rng.pick(&Area::ALL)?;
    let store = rng.pick(&[Area::Objects, Area::Bindings])?;
    Some(match rng.below(28) {
        0 | 1 => Edit::Byte,
        2 | 3 => Edit::Type(store),
        4 => Edit::HighByte(store),
        5 => Edit::Count(area),
        6 | 7 => Edit::Exchange(area),
        8 | 9 => Edit::Record(area),
        10 => Edit::Unused(area),
        11 => Edit::Rest,
        12 | 13 => Edit::Closure,
        14 => Edit::Focus,
        15 => Edit::Lock,
        16..=21 => Edit::Value {
            area: rng.pick(&[Area::Objects, Area::Bindings, Area::Positions])?,
            damage: rng.pick(&ValueDamage::ALL)?,
        },
        _ => Edit::Word { area, column: rng.below(area.width()) },
    })
}

/// The bytes of the records that the header counts, as far as the area reaches.
fn used(block: &[u8], area: Area) -> Range<usize> {
    let Range { start, end } = area.bytes();
    start..(start + 2 * area.width() * word(block, area.count_at()) as usize).min(end)
}

fn some_record(block: &[u8], area: Area, rng: &mut Rng) -> Option<Range<usize>> {
    let (used, width) = (used(block, area), 2 * area.width());
    let records = used.len() / width;
    // Often one of the first or last: those are in use most.
    let near = if rng.one_in(2) { records.min(8) } else { records };
    let index = rng.below(near);
    let index = if rng.one_in(2) { index } else { records.checked_sub(1 + index)? };
    let start = used.start + width * index;
    (records > 0).then_some(start..start + width)
}

fn change_byte(block: &mut [u8], rng: &mut Rng) -> Option<()> {
    let area = rng.pick(&Area::ALL)?;
    let within = match some_record(block, area, rng) {
        Some(record) if !rng.one_in(3) => record,
        _ => 0..block.len(),
    };
    edit_byte(&mut block[within], rng);
    Some(())
}

/// A number near the old one, a small or any number, or that of another record; always another.
fn change_word(block: &mut [u8], area: Area, at: usize, column: usize, rng: &mut Rng) -> Option<()> {
    let other = some_record(block, area, rng)?;
    let old = word(block, at);
    let new = match rng.below(6) {
        0 => old.wrapping_add(1),
        1 => old.wrapping_sub(1),
        2 => word(block, other.start + 2 * column),
        3 => 0,
        4 => rng.below(8) as u16,
        _ => rng.word(),
    };
    set_word(block, at, new);
    (new != old).then_some(())
}

/// Where in a record the class of an object or the type of a binding is.
fn type_at(area: Area) -> usize {
    if area == Area::Objects {
        0
    } else {
        2
    }
}

fn change_high_byte(block: &mut [u8], area: Area, rng: &mut Rng) -> Option<()> {
    let record = some_record(block, area, rng)?;
    block[record.start + type_at(area) + 1] ^= 1 + rng.below(255) as u8;
    Some(())
}

/// Often that of another record. An object's values often become zeros, since only they fit a class without fields; a binding's
/// becomes a number or null.
fn change_type(block: &mut [u8], area: Area, int: Type, rng: &mut Rng) -> Option<()> {
    let (record, other) = (some_record(block, area, rng)?, some_record(block, area, rng)?);
    let (at, values) = (record.start + type_at(area), record.start + 4);
    let (old, any) = (word(block, at), rng.below(int as usize + 1) as Type);
    let new = [int - 1, int, int + 1, any, word(block, other.start + type_at(area))][rng.below(5)];
    if new == old {
        return None;
    }
    set_word(block, at, new);
    match area {
        Area::Objects if rng.one_in(2) => block[values..record.end].fill(0),
        Area::Bindings if rng.one_in(2) => {
            let words = value_words([Value::Null, Value::Number(rng.number())][rng.below(2)]);
            (0..).zip(words).for_each(|(index, word)| set_word(block, values + 2 * index, word));
        }
        _ => {}
    }
    Some(())
}

/// The second word of an object.
fn change_lock(block: &mut [u8], rng: &mut Rng) -> Option<()> {
    let at = some_record(block, Area::Objects, rng)?.start + 2;
    let other = 1 - word(block, at).min(1);
    set_word(block, at, if rng.one_in(4) { 2 + rng.word() / 2 } else { other });
    Some(())
}

/// Where a value of a record in use begins: of an object any field's, or the place of one that its class has not.
fn some_value(block: &[u8], area: Area, rng: &mut Rng) -> Option<usize> {
    let record = some_record(block, area, rng)?;
    let columns = area.value_columns();
    // Classes have few fields.
    let near = if rng.one_in(8) { columns.len() } else { columns.len().min(3) };
    Some(record.start + 2 * columns[rng.below(near)])
}

fn change_value(block: &mut [u8], area: Area, damage: ValueDamage, rng: &mut Rng) -> Option<()> {
    let mut at = some_value(block, area, rng)?;
    // An object most often fits where another is.
    if damage == ValueDamage::Object && rng.one_in(2) {
        let tries: Vec<usize> = (0..6).filter_map(|_| some_value(block, area, rng)).collect();
        at = tries.into_iter().find(|&at| word(block, at) == value_words(Value::Object(0))[0]).unwrap_or(at);
    }
    let old = [0, 2, 4].map(|byte| word(block, at + byte));
    let objects = word(block, Area::Objects.count_at());
    let mut new = match damage {
        ValueDamage::Null => value_words(Value::Null),
        ValueDamage::Object => {
            let past = objects.wrapping_add(rng.below(2) as u16);
            let object = if rng.one_in(3) { past } else { rng.below(objects as usize) as u16 };
            value_words(Value::Object(object))
        }
        ValueDamage::Number => value_words(Value::Number(rng.number())),
        ValueDamage::Kind | ValueDamage::Word(_) => old,
    };
    match damage {
        ValueDamage::Kind => new[0] = 3 + rng.word() / 2,
        ValueDamage::Word(word) => new[word] = [0, 1, 2, rng.word()][rng.below(4)],
        ValueDamage::Null | ValueDamage::Object | ValueDamage::Number => {}
    }
    for (index, word) in new.into_iter().enumerate() {
        set_word(block, at + 2 * index, word);
    }
    (new != old).then_some(())
}

fn exchange(block: &mut [u8], area: Area, rng: &mut Rng) -> Option<()> {
    let (one, other) = (some_record(block, area, rng)?, some_record(block, area, rng)?);
    let words = if rng.one_in(2) { 0..area.width() } else { some_column(area, rng) };
    let [one, other] = [one, other].map(|record| record.start + 2 * words.start..record.start + 2 * words.end);
    let kept = block[one.clone()].to_vec();
    let differ = kept != block[other.clone()];
    block.copy_within(other.clone(), one.start);
    block[other].copy_from_slice(&kept);
    differ.then_some(())
}

/// Node and environment are the second and third word of both kinds of record.
fn copy_closure(block: &mut [u8], rng: &mut Rng) -> Option<()> {
    let areas = [(); 2].map(|_| [Area::Positions, Area::Frames][rng.below(2)]);
    let [from, to] = areas.map(|area| some_record(block, area, rng));
    let from = from?.start;
    block.copy_within(from + 2..from + 6, to?.start + 2);
    Some(())
}

fn change_focus(block: &mut [u8], rng: &mut Rng) -> Option<()> {
    let position = some_record(block, Area::Positions, rng)?.start;
    let (node, environment, object) = (rng.below(40) as u16, rng.below(4) as u16, rng.below(4) as u16);
    let value = [Value::Null, Value::Object(object), Value::Number(rng.number())][rng.below(3)];
    let [kind, low, high] = value_words(value);
    let words = [[1, node, environment, 0, 0, 0], [2, 0, 0, kind, low, high], [3, 0, 0, 0, 0, 0]][rng.below(3)];
    for (index, word) in words.into_iter().enumerate() {
        set_word(block, position + 2 * index, word);
    }
    Some(())
}

/// One of these words, which are 0, becomes another.
fn fill(block: &mut [u8], words: Range<usize>, rng: &mut Rng) -> Option<()> {
    if words.is_empty() {
        return None;
    }
    let at = words.start + 2 * rng.below(words.len() / 2);
    set_word(block, at, 1 + rng.word() / 2);
    Some(())
}

fn some_column(area: Area, rng: &mut Rng) -> Range<usize> {
    let column = rng.below(area.width());
    column..column + 1
}

/// The records behind it move, so that the area has no gap; a repeated record may drop the last.
fn remove_or_repeat(block: &mut [u8], area: Area, rng: &mut Rng) -> Option<()> {
    let record = some_record(block, area, rng)?;
    let end = area.bytes().end;
    if rng.one_in(2) {
        block.copy_within(record.end..end, record.start);
        block[end - record.len()..end].fill(0);
        add(block, area.count_at(), u16::MAX);
    } else {
        block.copy_within(record.start..end - record.len(), record.end);
        add(block, area.count_at(), 1);
    }
    Some(())
}

fn add(block: &mut [u8], at: usize, by: u16) {
    let sum = word(block, at).wrapping_add(by);
    set_word(block, at, sum);
}
