//! The script file: its six sections, where they lie, and questions 1 to 3.

use crate::{Question, Refusal};
use std::ops::Range;

/// The sections in file order; the discriminant indexes the tables below.
#[derive(Clone, Copy, Debug, PartialEq, Eq)]
pub enum Section {
    Interfaces,
    Signatures,
    Classes,
    Fields,
    Methods,
    Nodes,
}

/// The first faulty record of a section, if it has one.
pub type Fault = (Section, Option<usize>);

/// "Most records" of each section.
pub const LIMITS: [usize; 6] = [64, 256, 64, 256, 256, 1024];
/// Words of a record of each section.
pub const WIDTHS: [usize; 6] = [3, 3, 3, 2, 4, 4];
/// "Six entries of two words": the bodies begin behind the table of contents.
pub const CONTENTS: usize = 24;
/// The longest file: every section full.
pub const LONGEST: usize = offsets(&LIMITS)[6];

/// Where each section begins when the counts are these, and where the file ends.
pub const fn offsets(counts: &[usize; 6]) -> [usize; 7] {
    let mut offsets = [CONTENTS; 7];
    let mut section = 0;
    while section < 6 {
        offsets[section + 1] = offsets[section] + counts[section] * WIDTHS[section] * 2;
        section += 1;
    }
    offsets
}

/// "Runs of signatures, fields and methods belong to their owners in order."
fn runs(counts: impl Iterator<Item = u16>) -> impl Iterator<Item = Range<usize>> {
    counts.scan(0, |end, count| {
        let begin = *end;
        *end += count as usize;
        Some(begin..*end)
    })
}

/// The records of a file, word for word.
#[derive(Clone, Default)]
pub struct Script {
    /// form, then signature count and 0, or two parents
    pub interfaces: Vec<[u16; 3]>,
    /// name, parameter type, result type
    pub signatures: Vec<[u16; 3]>,
    /// interface type, field count, method count
    pub classes: Vec<[u16; 3]>,
    /// name, type
    pub fields: Vec<[u16; 2]>,
    /// name, parameter type, result type, body node
    pub methods: Vec<[u16; 4]>,
    /// kind, a, b, c
    pub nodes: Vec<[u16; 4]>,
}

impl Script {
    /// Questions 1 to 3, whose place is 0; then the records can be read.
    pub fn read(bytes: &[u8]) -> Result<Script, Refusal> {
        let refuse = |question| Err(Refusal { question, place: 0 });
        if !(CONTENTS..=LONGEST).contains(&bytes.len()) {
            return refuse(Question::Length);
        }
        let words: Vec<u16> = bytes.as_chunks().0.iter().map(|pair| u16::from_le_bytes(*pair)).collect();
        let counts: [usize; 6] = std::array::from_fn(|section| words[2 * section + 1] as usize);
        if counts.iter().zip(LIMITS).any(|(&count, limit)| count > limit) || counts[5] == 0 {
            return refuse(Question::Counts);
        }
        let offsets = offsets(&counts);
        let in_place = (0..6).all(|section| words[2 * section] as usize == offsets[section]);
        if !in_place || offsets[6] != bytes.len() {
            return refuse(Question::Bodies);
        }
        let body = |section: Section| &words[offsets[section as usize] / 2..offsets[section as usize + 1] / 2];
        Ok(Script {
            interfaces: body(Section::Interfaces).as_chunks().0.to_vec(),
            signatures: body(Section::Signatures).as_chunks().0.to_vec(),
            classes: body(Section::Classes).as_chunks().0.to_vec(),
            fields: body(Section::Fields).as_chunks().0.to_vec(),
            methods: body(Section::Methods).as_chunks().0.to_vec(),
            nodes: body(Section::Nodes).as_chunks().0.to_vec(),
        })
    }

    /// The file of these records, with its table of contents. Its counts must be words.
    pub fn encode(&self) -> Vec<u8> {
        let counts = self.counts();
        let contents = counts.iter().zip(offsets(&counts)).flat_map(|(&count, offset)| [offset as u16, count as u16]);
        contents
            .chain(self.interfaces.as_flattened().iter().copied())
            .chain(self.signatures.as_flattened().iter().copied())
            .chain(self.classes.as_flattened().iter().copied())
            .chain(self.fields.as_flattened().iter().copied())
            .chain(self.methods.as_flattened().iter().copied())
            .chain(self.nodes.as_flattened().iter().copied())
            .flat_map(u16::to_le_bytes)
            .collect()
    }

    /// How many records each section has.
    pub fn counts(&self) -> [usize; 6] {
        [
            self.interfaces.len(),
            self.signatures.len(),
            self.classes.len(),
            self.fields.len(),
            self.methods.len(),
            self.nodes.len(),
        ]
    }

    /// The byte offset of a record.
    pub fn place(&self, section: Section, index: usize) -> u16 {
        (offsets(&self.counts())[section as usize] + index * WIDTHS[section as usize] * 2) as u16
    }

    /// A no to a question, at a record.
    pub fn refusal(&self, question: Question, section: Section, index: usize) -> Refusal {
        Refusal { question, place: self.place(section, index) }
    }

    /// A no at the first of these records, which stand in file order: that with the lowest offset.
    pub fn refuse_first<const N: usize>(&self, question: Question, faults: [Fault; N]) -> Result<(), Refusal> {
        let first = faults.into_iter().find_map(|(section, index)| Some(self.refusal(question, section, index?)));
        first.map_or(Ok(()), Err)
    }

    /// The signatures of each interface; a join has none of its own.
    pub fn signature_runs(&self) -> impl Iterator<Item = Range<usize>> + '_ {
        runs(self.interfaces.iter().map(|&[form, count, _]| if form == 0 { count } else { 0 }))
    }

    /// The fields of each class.
    pub fn field_runs(&self) -> impl Iterator<Item = Range<usize>> + '_ {
        runs(self.classes.iter().map(|&[_, fields, _]| fields))
    }

    /// The methods of each class.
    pub fn method_runs(&self) -> impl Iterator<Item = Range<usize>> + '_ {
        runs(self.classes.iter().map(|&[_, _, methods]| methods))
    }

    /// The type of the class with this index: "interfaces are 1 to I, classes I+1 to I+C".
    pub fn class_type(&self, index: usize) -> u16 {
        (1 + self.interfaces.len() + index) as u16
    }

    /// "Type I+C+1 is Int": the last type.
    pub fn int_type(&self) -> u16 {
        self.class_type(self.classes.len())
    }
}
