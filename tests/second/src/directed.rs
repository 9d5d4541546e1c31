//! Scripts with one fault of a chosen kind, and scripts at the limits.

use crate::expr::{parts_mut, CAST, NEW, NUMBER, SUM};
use crate::generate::{program, Rng};
use crate::script::{Script, Section, CONTENTS, LIMITS, LONGEST};
use std::collections::BTreeSet;
use std::ops::Range;

/// A script that is in order apart from one fault.
pub struct Faulty {
    pub script: Vec<u8>,
    pub number: u16,
    /// Where the fault is; not said for questions 1 to 10.
    pub place: Option<u16>,
}

/// A script that gets its first no from question `number` (1 to 15).
pub fn directed(number: u16, rng: &mut Rng) -> Faulty {
    loop {
        let (mut script, node) = program(rng, (11..=15).contains(&number).then_some(number));
        if let Some(node) = node {
            let place = Some(script.place(Section::Nodes, node));
            return Faulty { script: script.encode(), number, place };
        }
        let broken = match number {
            1..=3 => Some(break_file(number, script.encode(), rng)),
            4 => break_interface(&mut script, rng),
            5 => break_counts(&mut script, rng),
            6 => break_type(&mut script, rng),
            7 => break_node(&mut script, rng),
            8 => break_names(&mut script, rng),
            9 => break_join(&mut script, rng),
            10 => break_class(&mut script, rng),
            _ => None, // the program had no occasion for the fault
        };
        if let Some(script) = broken {
            return Faulty { script, number, place: None };
        }
    }
}

fn break_file(number: u16, mut file: Vec<u8>, rng: &mut Rng) -> Vec<u8> {
    let section = rng.below(6);
    let mut set = |word: usize, value: usize| file[2 * word..][..2].copy_from_slice(&(value as u16).to_le_bytes());
    match (number, rng.below(3)) {
        (1, 0) => file.resize(LONGEST + 1 + rng.below(100), 0),
        (1, _) => file.truncate(rng.below(CONTENTS)),
        (2, 0) => set(11, 0), // no node
        (2, _) => set(2 * section + 1, [LIMITS[section] + 1, 65_535][rng.below(2)]),
        (_, 0) => set(2 * section, [0, 23, 25, 65_535][rng.below(4)]),
        (_, 1) if file.len() < LONGEST => file.push(0),
        _ => file.truncate(file.len() - 1 - rng.below(8)),
    }
    file
}

fn break_interface(script: &mut Script, rng: &mut Rng) -> Option<Vec<u8>> {
    let index = rng.below(script.interfaces.len());
    let record = script.interfaces.get_mut(index)?;
    let above = above_a_byte(index as u16, rng);
    let not_earlier = rng.pick(&[0, index as u16 + 1, index as u16 + 2, above, 65_535])?;
    match (record[0], rng.below(3)) {
        (_, 0) => record[0] = [2, 65_535][rng.below(2)],
        (0, _) => record[2] = 1 + rng.below(65_535) as u16,
        (_, word) => record[word] = not_earlier,
    }
    Some(script.encode())
}

/// A word whose low byte alone would be a type up to the last one given.
fn above_a_byte(last: u16, rng: &mut Rng) -> u16 {
    256 * (1 + rng.below(255) as u16) + rng.below(last as usize + 1) as u16
}

fn break_counts(script: &mut Script, rng: &mut Rng) -> Option<Vec<u8>> {
    let lists = script.interfaces.iter_mut().filter(|record| record[0] == 0).map(|record| &mut record[1]);
    let classes = script.classes.iter_mut().flat_map(|record| &mut record[1..]);
    let mut counts: Vec<&mut u16> = lists.chain(classes).collect();
    let at = rng.below(counts.len());
    let count = counts.get_mut(at)?;
    **count = if **count > 0 && rng.one_in(2) { **count - 1 } else { **count + 1 + rng.word() / 2 };
    Some(script.encode())
}

fn break_type(script: &mut Script, rng: &mut Rng) -> Option<Vec<u8>> {
    let interfaces = script.interfaces.len();
    let int = script.int_type();
    let past = [int + 1, int + 2, above_a_byte(int, rng), 65_535][rng.below(4)];
    let no_interface = [0, interfaces as u16 + 1, int, above_a_byte(interfaces as u16, rng)][rng.below(4)];
    let no_class = [rng.below(interfaces + 1) as u16, int, int, int + 1, above_a_byte(int - 1, rng)][rng.below(5)];
    let (news, casts): (Vec<_>, Vec<_>) =
        script.nodes.iter_mut().filter(|node| [NEW, CAST].contains(&node[0])).partition(|node| node[0] == NEW);
    let mut words: [Vec<(&mut u16, u16)>; 6] = [
        script.signatures.iter_mut().flat_map(|record| &mut record[1..]).map(|word| (word, past)).collect(),
        script.classes.iter_mut().map(|record| (&mut record[0], no_interface)).collect(),
        script.fields.iter_mut().map(|record| (&mut record[1], past)).collect(),
        script.methods.iter_mut().flat_map(|record| &mut record[1..3]).map(|word| (word, past)).collect(),
        news.into_iter().map(|node| (&mut node[1], no_class)).collect(),
        casts.into_iter().map(|node| (&mut node[1], past)).collect(),
    ];
    let section = &mut words[rng.below(6)];
    let at = rng.below(section.len());
    let (word, wrong) = section.get_mut(at)?;
    **word = *wrong;
    Some(script.encode())
}

fn break_node(script: &mut Script, rng: &mut Rng) -> Option<Vec<u8>> {
    let count = script.nodes.len();
    let index = rng.below(count);
    let other = [0, index, rng.below(count), count, 65_535][rng.below(5)] as u16;
    let node = &mut script.nodes[index];
    match rng.below(6) {
        0 => node[0] = [SUM + 1, 65_535][rng.below(2)],
        1 if [0, 1, 2, NEW, CAST, 9, NUMBER, SUM].contains(&node[0]) => node[3] = 1 + rng.word() / 2,
        2 if node[0] == 5 => node[1] = rng.below(2) as u16,
        3 => *parts_mut(node).iter_mut().last().filter(|part| **part != other)? = other,
        4 if count < LIMITS[5] => script.nodes.push([0; 4]), // used by nobody
        _ => {
            let at = rng.below(script.methods.len());
            *script.methods.get_mut(at).map(|method| &mut method[3]).filter(|body| **body != other)? = other;
        }
    }
    Some(script.encode())
}

/// A name of a run is repeated, or a class gets 9 fields.
fn break_names(script: &mut Script, rng: &mut Rng) -> Option<Vec<u8>> {
    let section = rng.below(4);
    let runs: Vec<Range<usize>> = match section {
        0 => script.signature_runs().collect(),
        1 => script.field_runs().collect(),
        2 => script.method_runs().collect(),
        _ => {
            let class = rng.below(script.classes.len());
            let run = script.field_runs().nth(class)?;
            let more = (0..9 - run.len() as u16).map(|field| [60_000 + field, 0]);
            script.fields.splice(run.end..run.end, more);
            script.classes[class][1] = 9;
            return (script.fields.len() <= LIMITS[3]).then(|| script.encode());
        }
    };
    let long: Vec<&Range<usize>> = runs.iter().filter(|run| run.len() > 1).collect();
    let run = rng.pick(&long)?;
    let later = run.start + 1 + rng.below(run.len() - 1);
    let earlier = run.start + rng.below(later - run.start);
    match section {
        0 => script.signatures[later][0] = script.signatures[earlier][0],
        1 => script.fields[later][0] = script.fields[earlier][0],
        _ => script.methods[later][0] = script.methods[earlier][0],
    }
    Some(script.encode())
}

/// By interface, the signatures that it has, in order of number.
fn signatures_of(script: &Script) -> Vec<BTreeSet<usize>> {
    let mut all: Vec<BTreeSet<usize>> = vec![];
    for (&[form, left, right], run) in script.interfaces.iter().zip(script.signature_runs()) {
        let parents = [left, right].into_iter().filter(|_| form == 1).flat_map(|parent| &all[parent as usize - 1]);
        all.push(parents.copied().chain(run).collect());
    }
    all
}

fn another_type(script: &Script, ty: u16, rng: &mut Rng) -> u16 {
    let types = script.int_type() + 1;
    (ty + 1 + rng.below(types as usize - 1) as u16) % types
}

/// Two signatures that meet in a join get different types.
fn break_join(script: &mut Script, rng: &mut Rng) -> Option<Vec<u8>> {
    let name = |signature: usize| script.signatures[signature][0];
    let mut meeting: Vec<usize> = vec![];
    for own in signatures_of(script) {
        // Names are unique in a list, so this finds nothing there.
        meeting.extend(own.iter().filter(|&&one| own.iter().any(|&other| other != one && name(other) == name(one))));
    }
    let (signature, word) = (rng.pick(&meeting)?, 1 + rng.below(2));
    script.signatures[signature][word] = another_type(script, script.signatures[signature][word], rng);
    Some(script.encode())
}

/// A class's method that its interface asks for gets another name or another type.
fn break_class(script: &mut Script, rng: &mut Rng) -> Option<Vec<u8>> {
    let all = signatures_of(script);
    let runs: Vec<Range<usize>> = script.method_runs().collect();
    let class = rng.below(script.classes.len());
    let interface = script.classes.get(class)?[0];
    let asked: Vec<u16> =
        all[interface as usize - 1].iter().map(|&signature| script.signatures[signature][0]).collect();
    let name = rng.pick(&asked)?;
    let method = runs[class].clone().find(|&method| script.methods[method][0] == name)?;
    match rng.below(3) {
        0 => {
            script.methods[method][0] =
                (name..).find(|name| runs[class].clone().all(|other| script.methods[other][0] != *name))?
        }
        word => script.methods[method][word] = another_type(script, script.methods[method][word], rng),
    }
    Some(script.encode())
}

/// An accepted script with these counts, if they are within the limits. Signatures stand in the
/// last interface, classes implement the first and have their fields and methods evenly.
pub fn sized([interfaces, signatures, classes, fields, methods, nodes]: [usize; 6]) -> Script {
    let share = |all: usize, index: usize| (all * (index + 1) / classes - all * index / classes) as u16;
    let last = |index: usize, count: usize| if index + 1 == count { signatures as u16 } else { 0 };
    let start = nodes - methods;
    let cast = |node: usize| if node + 1 < start { [CAST, 0, node as u16 + 1, 0] } else { [0; 4] };
    Script {
        interfaces: (0..interfaces).map(|index| [0, last(index, interfaces), 0]).collect(),
        signatures: (0..signatures).map(|name| [name as u16, 0, 0]).collect(),
        classes: (0..classes).map(|index| [1, share(fields, index), share(methods, index)]).collect(),
        fields: (0..fields).map(|name| [name as u16, 0]).collect(),
        methods: (0..methods).map(|name| [name as u16, 0, 0, (start + name) as u16]).collect(),
        nodes: (0..start).map(cast).chain((0..methods).map(|_| [0; 4])).collect(),
    }
}

/// Every limit from both sides, each script with the number that it must get.
pub fn limits() -> Vec<(Vec<u8>, u16)> {
    let mut full = sized(LIMITS).encode();
    let bare = sized([0, 0, 0, 0, 0, 2]).encode();
    let mut all =
        vec![(vec![], 1), (bare[..CONTENTS - 1].to_vec(), 1), (bare[..CONTENTS].to_vec(), 3), (full.clone(), 0)];
    let mut no_nodes = bare[..CONTENTS].to_vec();
    no_nodes[22] = 0;
    full.push(0);
    all.extend([(no_nodes, 2), (full, 1)]);
    // One section at a time at its limit and one past it, with the owners that it needs.
    for (counts, section) in [
        ([64, 0, 0, 0, 0, 2], 0),
        ([1, 256, 0, 0, 0, 2], 1),
        ([1, 0, 64, 0, 0, 2], 2),
        ([1, 0, 33, 256, 0, 2], 3),
        ([1, 0, 1, 0, 256, 300], 4),
        ([0, 0, 0, 0, 0, 1024], 5),
    ] {
        let mut past = counts;
        past[section] += 1;
        all.extend([(sized(counts).encode(), 0), (sized(past).encode(), 2)]);
    }
    all.extend([8, 9].map(|fields| (sized([1, 0, 1, fields, 0, 2]).encode(), if fields == 8 { 0 } else { 8 })));
    all
}
