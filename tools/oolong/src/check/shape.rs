//! Why questions 1 to 8 get a no. The file's records may be anything here.

use super::declared::Names;
use crate::script::{records, Section, SECTIONS};
use std::ops::Range;

const CONTENTS: usize = 24;
/// Records of each section at the most.
pub const MOST: [usize; 6] = [64, 256, 64, 256, 256, 1_024];
const BYTES: [usize; 6] = [6, 6, 6, 4, 8, 8];

/// Which of the words a, b and c of a node are parts, by its kind.
const PARTS: [&[usize]; 12] = [&[], &[], &[], &[3], &[3], &[2, 3], &[], &[2], &[1, 2, 3], &[2], &[], &[]];

/// How many of a node's words its kind uses; those behind are 0.
const USED: [usize; 12] = [1, 2, 3, 4, 4, 4, 2, 3, 4, 3, 3, 3];

/// A number with a comma in front of its last three digits.
pub fn digits(number: usize) -> String {
    match number {
        0..=999 => number.to_string(),
        _ => format!("{},{:03}", number / 1_000, number % 1_000),
    }
}

/// A number, and what is counted.
pub fn counted(number: usize, what: &str) -> String {
    let more = match (number, what) {
        (1, _) => "",
        (_, "class") => "es",
        _ => "s",
    };
    format!("{} {what}{more}", digits(number))
}

fn word(file: &[u8], at: usize) -> usize {
    let byte = |at: usize| file.get(at).copied().map_or(0, usize::from);
    byte(at) + 256 * byte(at + 1)
}

/// Where the contents place a section, and how many records they say it has.
fn entry(file: &[u8], section: Section) -> (usize, usize) {
    (word(file, 4 * section as usize), word(file, 4 * section as usize + 2))
}

/// Why a question about the file as a whole gets a no.
pub fn whole(file: &[u8], number: u16) -> Option<String> {
    let reason = match number {
        1 if file.len() < CONTENTS => Some(format!("it has {}", counted(file.len(), "byte"))),
        1 => Some("it has more".into()),
        2 => counts(file),
        3 => places(file),
        5 => owners(file),
        _ => None,
    };
    let is_text =
        number <= 3 && !file.is_empty() && file.iter().all(|byte| matches!(byte, b'\t'..=b'\r' | b' '..=b'~'));
    if is_text {
        return Some("its bytes are a text, and only a file whose name ends in .oolong is read as a text".into());
    }
    reason
}

fn counts(file: &[u8]) -> Option<String> {
    let above = SECTIONS.into_iter().find(|&section| entry(file, section).1 > MOST[section as usize]);
    let Some(section) = above else { return Some("there is no node".into()) };
    let (count, most) = (entry(file, section).1, MOST[section as usize]);
    Some(format!("there are {}, and {} are the most", counted(count, section.name()), digits(most)))
}

fn places(file: &[u8]) -> Option<String> {
    let mut must = CONTENTS;
    for section in SECTIONS {
        let (at, count) = entry(file, section);
        if at != must {
            return Some(format!("the {} section is said to begin at byte {at}, and must at {must}", section.name()));
        }
        must += BYTES[section as usize] * count;
    }
    Some(format!("the last section ends at byte {must}, and the file at {}", file.len()))
}

/// The section that owners own, with how many records each of them has.
fn owned(file: &[u8], section: Section) -> Vec<usize> {
    let word = if section == Section::Method { 2 } else { 1 };
    match section {
        Section::Signature => {
            let lists = |words: &Vec<usize>| if words[0] == 0 { words[1] } else { 0 };
            records(file, Section::Interface).1.iter().map(lists).collect()
        }
        _ => records(file, Section::Class).1.iter().map(|words| words[word]).collect(),
    }
}

fn owners(file: &[u8]) -> Option<String> {
    [Section::Signature, Section::Field, Section::Method].into_iter().find_map(|section| {
        let (there, said) = (entry(file, section).1, owned(file, section).iter().sum::<usize>());
        let owners = if section == Section::Signature { "lists" } else { "classes" };
        let said_in_words = counted(said, section.name());
        (there != said).then(|| format!("the {owners} count {said_in_words}, and the file has {}", digits(there)))
    })
}

/// Why a question about a record gets a no.
pub fn of_record(file: &[u8], names: &Names, number: u16, (section, at): (Section, usize)) -> Option<String> {
    let records = records(file, section).1;
    let words = records.get(at)?;
    match number {
        4 => interface(names, at, words),
        6 => types(names, section, words),
        7 => match section {
            Section::Node => node(file, at, words),
            _ => Some(format!("its body, node {}, is not there", words.get(3)?)),
        },
        8 => twice(file, names, section, at),
        _ => None,
    }
}

fn interface(names: &Names, at: usize, words: &[usize]) -> Option<String> {
    match *words {
        [0, _, last] if last != 0 => Some(format!("the last word of a list is 0, and this one's is {last}")),
        [1, first, second] => {
            // The interfaces in front of record `at` are the types 1 to `at`.
            let parent = [first, second].into_iter().find(|parent| !(1..=at).contains(parent))?;
            let name = if parent == at + 1 { "itself".into() } else { names.type_sort(parent) };
            Some(format!("it extends {name}; only interfaces that stand before it can be joined"))
        }
        [form, ..] if form > 1 => Some(format!("its form is {form}, and only 0, a list, and 1, a join, are forms")),
        _ => None,
    }
}

fn types(names: &Names, section: Section, words: &[usize]) -> Option<String> {
    let (interfaces, int) = (names.interfaces, names.int());
    let wrong = |number: &&usize| **number > int;
    match (section, words) {
        (Section::Class, [interface, ..]) => {
            Some(format!("what it implements must be an interface, and this is {}", names.type_sort(*interface)))
        }
        (Section::Node, [6, class, ..]) if *class <= interfaces || *class >= int => {
            Some(format!("a new makes objects of classes only, and this is {}", names.type_sort(*class)))
        }
        (Section::Node, [7, number, ..]) | (Section::Field, [_, number]) => no_type(*number, int),
        (Section::Signature | Section::Method, [_, rest @ ..]) => no_type(*rest.iter().take(2).find(wrong)?, int),
        _ => None,
    }
}

fn no_type(number: usize, int: usize) -> Option<String> {
    (number > int).then(|| format!("there is no type {number}: the last, Int, is {int}"))
}

fn node(file: &[u8], at: usize, words: &[usize]) -> Option<String> {
    let nodes = records(file, Section::Node).1;
    let kind = *words.first()?;
    let Some(parts) = PARTS.get(kind) else { return Some(format!("there is no kind {kind}: the last is 11")) };
    if words.iter().skip(USED[kind]).any(|&word| word != 0) {
        return Some(format!("kind {kind} has no more than {}; the others are 0", counted(USED[kind], "word")));
    }
    if kind == 5 && words.get(1).is_some_and(|&variable| variable < 2) {
        return Some("a let binds variable 2 or more".into());
    }
    for part in parts.iter().filter_map(|&part| words.get(part)) {
        if *part <= at {
            return Some(format!("its part, node {part}, is not behind it"));
        }
        if *part >= nodes.len() {
            return Some(format!("its part, node {part}, is not there"));
        }
    }
    used(file, &nodes, at)
}

fn used(file: &[u8], nodes: &[Vec<usize>], at: usize) -> Option<String> {
    let of_node = |words: &Vec<usize>| {
        let parts = words.first().and_then(|&kind| PARTS.get(kind)).copied().unwrap_or(&[]);
        parts.iter().filter(|&&part| words.get(part) == Some(&at)).count()
    };
    let bodies = records(file, Section::Method).1.iter().filter(|words| words.get(3) == Some(&at)).count();
    match (at, nodes.iter().map(of_node).sum::<usize>() + bodies) {
        (0, 0) | (1.., 1) => None,
        (0, _) => Some("node 0 is the start, which nothing may use".into()),
        (_, 0) => Some("nothing uses it, as a part or as a body".into()),
        (_, times) => Some(format!("it is used {times} times, and once is wanted")),
    }
}

/// The records of the owner that a record belongs to.
fn siblings(file: &[u8], section: Section, at: usize) -> Range<usize> {
    let mut start = 0;
    for count in owned(file, section) {
        if at < start + count {
            return start..at;
        }
        start += count;
    }
    at..at
}

fn twice(file: &[u8], names: &Names, section: Section, at: usize) -> Option<String> {
    let records = records(file, section).1;
    if section == Section::Class {
        return Some(format!("it has {}, and 8 are the most", counted(*records.get(at)?.get(1)?, "field")));
    }
    let name = *records.get(at)?.first()?;
    let earlier =
        siblings(file, section, at).find(|&i| records.get(i).and_then(|words| words.first()) == Some(&name))?;
    let owner = if section == Section::Signature { "interface" } else { "class" };
    let (name, place) = (names.of_record(section, name), names.place(section, earlier));
    Some(format!("{name} stands in the same {owner} already: {place}"))
}
