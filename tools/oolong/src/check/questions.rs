//! The questions of Check, in short; docs/SCRIPT.md has them whole.

/// Questions to this one are about the shape of the file: its records may be anything.
pub const LAST_OF_SHAPE: u16 = 8;

/// Whether the place of a no is a record's; else the question is about the file as a whole.
pub fn has_record(number: u16) -> bool {
    ![1, 2, 3, 5].contains(&number)
}

pub fn sentence(number: u16) -> &'static str {
    match number {
        1 => "is the file 24 to 13,592 bytes?",
        2 => "is no count above its limit, and is there a node?",
        3 => "does each section begin where it must, and the last end with the file?",
        4 => "is each interface a list, or a join of two earlier interfaces?",
        5 => "do the owners' counts add up to the counts of signatures, fields and methods?",
        6 => "is each type a type, a class's interface an interface, what a new makes a class?",
        7 => "has each node a known kind, words and parts that fit it, and one use?",
        8 => "is no name twice in one list or class, and has no class more than 8 fields?",
        9 => "has a join, if it gets one method name twice, the same types each time?",
        10 => "has each class every method of its interface, with the same types?",
        11 => "is each variable bound?",
        12 => "is no null inferred?",
        13 => "has the target's type the field or method, and is no number locked?",
        14 => "is each inferred type below the one that is wanted?",
        15 => "have the two asyncs of a fork no free variable in common?",
        _ => "is all as it must be?",
    }
}
