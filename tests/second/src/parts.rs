//! What may be answered about a block that was well formed before some of its words were changed, told by where these
//! stand. The table is one of its own, in bytes as docs/BLOCK.md counts them: it shares nothing with `block` and
//! `wellformed`, whose answers it holds.

use crate::damage::word;

/// Request 5: "21 now means objects; 26 bindings, after 21; 27 frames, threads and which objects are shut, after 26."
#[derive(Clone, Copy, Debug, PartialEq, Eq, PartialOrd, Ord)]
pub enum Part {
    Objects,
    Bindings,
    Threads,
}

impl Part {
    pub const ALL: [Part; 3] = [Part::Objects, Part::Bindings, Part::Threads];

    pub fn number(self) -> u16 {
        [21, 26, 27][self as usize]
    }

    /// The last byte of the block's that counts with this part.
    pub fn last_byte(self) -> usize {
        [13_319, 37_895, 65_535][self as usize]
    }
}

/// What the change of a word is.
#[derive(Clone, Copy, Debug, PartialEq, Eq, PartialOrd, Ord)]
pub enum Change {
    /// Of how many objects there are. What is no longer counted is not 0, and zeros are no object.
    ObjectCount,
    /// Of how many bindings there are. Zeros are a binding: `this` of type Unit, null and without a link.
    BindingCount,
    /// To more bindings than there can be.
    ManyBindings,
    /// Of how many frames or positions there are.
    ThreadCount,
    Class,
    /// To 0 or to a number that no class can have.
    NoClass,
    /// To open or to shut.
    Lock,
    /// To neither.
    NoLock,
    /// Of a word of a field's value.
    Field,
    Name,
    Type,
    /// To a number that no type can have.
    NoType,
    /// Of a word of a binding's value.
    Value,
    /// Of the kind of a value, of a field or of a binding, to none.
    NoKind(Part),
    /// To an earlier binding or to none.
    Link,
    /// To the binding itself or to a later one.
    LinkAhead,
    /// Of any word of a position or a frame.
    Thread,
    /// Of a word without a meaning.
    Unused(Part),
}

impl Change {
    /// Every change that there is.
    pub const ALL: [Change; 22] = [
        Change::ObjectCount,
        Change::BindingCount,
        Change::ManyBindings,
        Change::ThreadCount,
        Change::Class,
        Change::NoClass,
        Change::Lock,
        Change::NoLock,
        Change::Field,
        Change::Name,
        Change::Type,
        Change::NoType,
        Change::Value,
        Change::NoKind(Part::Objects),
        Change::NoKind(Part::Bindings),
        Change::NoKind(Part::Threads),
        Change::Link,
        Change::LinkAhead,
        Change::Thread,
        Change::Unused(Part::Objects),
        Change::Unused(Part::Bindings),
        Change::Unused(Part::Threads),
    ];

    /// What may be answered where this is the only change.
    pub fn answers(self) -> &'static [u16] {
        match self {
            Change::Class => &[0, 21, 26, 27],
            Change::Field => &[0, 21],
            Change::ObjectCount | Change::NoClass | Change::NoLock => &[21],
            Change::NoKind(Part::Objects) | Change::Unused(Part::Objects) => &[21],
            Change::BindingCount | Change::Type => &[0, 26, 27],
            Change::Value => &[0, 26],
            Change::ManyBindings | Change::NoType | Change::LinkAhead => &[26],
            Change::NoKind(Part::Bindings) | Change::Unused(Part::Bindings) => &[26],
            Change::Lock | Change::Name | Change::Link | Change::Thread => &[0, 27],
            Change::ThreadCount | Change::NoKind(Part::Threads) | Change::Unused(Part::Threads) => &[27],
        }
    }

    /// What may be answered where a part is bad besides: that part is named, unless this change makes an earlier one bad.
    pub fn answers_beside(self, bad: Part) -> Vec<u16> {
        let is_earlier = |&number: &u16| number != 0 && number < bad.number();
        let mut answers: Vec<u16> = self.answers().iter().copied().filter(is_earlier).collect();
        if answers.len() < self.answers().len() {
            answers.push(bad.number());
        }
        answers
    }

    /// What it may lead to beside other changes. With the records that it counts an object may come or go, and then
    /// whoever names an object may be at fault; all else can do no more than it does alone.
    fn beside_others(self) -> &'static [u16] {
        match self {
            Change::ObjectCount => &[21, 26, 27],
            other => other.answers(),
        }
    }
}

/// What the word at this byte, if it becomes another, is a change of.
pub fn change_at(script: &[u8], block: &[u8], at: usize, new: u16) -> Change {
    let counted = |count_at: usize, begin: usize, width: usize| (at - begin) / width < word(block, count_at).into();
    match at {
        0..=1 => Change::ObjectCount,
        2..=3 if new > 2_048 => Change::ManyBindings,
        2..=3 => Change::BindingCount,
        4..=7 => Change::ThreadCount,
        8..=13_319 if counted(0, 8, 52) => change_of_object(script, block, at, new),
        8..=13_319 => Change::Unused(Part::Objects),
        13_320..=37_895 if counted(2, 13_320, 12) => change_of_binding(at - 13_320, new),
        13_320..=37_895 => Change::Unused(Part::Bindings),
        37_896..=38_777 if counted(6, 37_896, 14) => match (at - 37_896) % 14 {
            6 if new > 2 => Change::NoKind(Part::Threads),
            _ => Change::Thread,
        },
        38_778..=51_065 if counted(4, 38_778, 6) => Change::Thread,
        _ => Change::Unused(Part::Threads),
    }
}

fn change_of_object(script: &[u8], block: &[u8], at: usize, new: u16) -> Change {
    let byte = (at - 8) % 52;
    match byte {
        0 if new == 0 || new > 128 => Change::NoClass,
        0 => Change::Class,
        2 if new > 1 => Change::NoLock,
        2 => Change::Lock,
        _ if (byte - 4) / 6 >= fields(script, word(block, at - byte)) => Change::Unused(Part::Objects),
        _ if (byte - 4) % 6 == 0 && new > 2 => Change::NoKind(Part::Objects),
        _ => Change::Field,
    }
}

/// How many fields a class has, as the script's bytes say.
fn fields(script: &[u8], class: u16) -> usize {
    let (interfaces, classes_at) = (word(script, 2), word(script, 8));
    word(script, usize::from(classes_at) + 6 * usize::from(class - interfaces - 1) + 2).into()
}

fn change_of_binding(at: usize, new: u16) -> Change {
    match at % 12 {
        0 => Change::Name,
        2 if new > 129 => Change::NoType,
        2 => Change::Type,
        4 if new > 2 => Change::NoKind(Part::Bindings),
        4 | 6 | 8 => Change::Value,
        _ if usize::from(new) > at / 12 => Change::LinkAhead,
        _ => Change::Link,
    }
}

/// What may be answered about a block of this script that was well formed before it became what it is after.
pub fn answers(script: &[u8], before: &[u8], after: &[u8]) -> Vec<u16> {
    let changed = (0..before.len()).step_by(2).filter(|&at| before[at..at + 2] != after[at..at + 2]);
    let changes: Vec<Change> = changed.map(|at| change_at(script, before, at, word(after, at))).collect();
    if let [only] = changes[..] {
        return only.answers().to_vec();
    }
    let mut all = vec![0];
    all.extend(changes.into_iter().flat_map(Change::beside_others));
    all.sort();
    all.dedup();
    all
}
