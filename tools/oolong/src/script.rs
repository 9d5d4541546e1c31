//! A script file that Check has accepted, record by record, with the names of its text if it has one. Node numbers, types and names are those of docs/SCRIPT.md.

use crate::text::Reading;
use std::ops::Range;

#[derive(Clone, Copy, Debug, PartialEq, Eq)]
pub enum Node {
    Null,
    Variable(usize),
    Read { target: usize, field: usize },
    Write { target: usize, field: usize, part: usize },
    Call { target: usize, method: usize, part: usize },
    Let { variable: usize, first: usize, last: usize },
    New { class: usize },
    Cast { to: usize, part: usize },
    Fork { left: usize, right: usize, last: usize },
    Lock { target: usize, part: usize },
    Number(i32),
    Sum(usize, usize),
}

pub struct Class {
    pub interface: usize,
    /// Its runs of the field and the method records.
    pub fields: Range<usize>,
    pub methods: Range<usize>,
}

pub struct Field {
    pub name: usize,
    pub type_number: usize,
}

pub struct Method {
    pub name: usize,
    pub parameter: usize,
    pub result: usize,
    pub body: usize,
}

pub struct Script {
    /// The bytes that are lent to the engine.
    pub file: Vec<u8>,
    pub interfaces: usize,
    pub classes: Vec<Class>,
    pub fields: Vec<Field>,
    pub methods: Vec<Method>,
    pub nodes: Vec<Node>,
    /// The method that each node is in; none for those of the start.
    pub owners: Vec<Option<usize>>,
    pub text: Option<Text>,
}

/// The text that a script was read from.
pub struct Text {
    pub bytes: Vec<u8>,
    pub reading: Reading,
}

/// The sections of a script file, in its order.
#[derive(Clone, Copy, Debug, PartialEq, Eq)]
pub enum Section {
    Interface,
    Signature,
    Class,
    Field,
    Method,
    Node,
}

pub const SECTIONS: [Section; 6] =
    [Section::Interface, Section::Signature, Section::Class, Section::Field, Section::Method, Section::Node];

impl Section {
    pub fn name(self) -> &'static str {
        ["interface", "signature", "class", "field", "method", "node"][self as usize]
    }

    fn words(self) -> usize {
        [3, 3, 3, 2, 4, 4][self as usize]
    }
}

/// The words of a section's records, and where the section begins. A file that is cut gives the records that are there.
pub fn records(file: &[u8], section: Section) -> (usize, Vec<Vec<usize>>) {
    let word = |at: usize| file.get(at..at + 2).map(|bytes| usize::from(bytes[0]) + 256 * usize::from(bytes[1]));
    let (at, count) = (word(4 * section as usize).unwrap_or(0), word(4 * section as usize + 2).unwrap_or(0));
    let record = |i: usize| (0..section.words()).map(|k| word(at + 2 * (section.words() * i + k))).collect();
    (at, (0..count).map_while(record).collect())
}

/// The record that begins at a byte of the file.
pub fn record_at(file: &[u8], place: usize) -> Option<(Section, usize)> {
    SECTIONS.iter().find_map(|&section| {
        let (at, records) = records(file, section);
        let size = 2 * section.words();
        let number = place.checked_sub(at)? / size;
        (number < records.len() && at + size * number == place).then_some((section, number))
    })
}

fn node(words: &[usize]) -> Node {
    let (a, b, c) = (words[1], words[2], words[3]);
    match words[0] {
        0 => Node::Null,
        1 => Node::Variable(a),
        2 => Node::Read { target: a, field: b },
        3 => Node::Write { target: a, field: b, part: c },
        4 => Node::Call { target: a, method: b, part: c },
        5 => Node::Let { variable: a, first: b, last: c },
        6 => Node::New { class: a },
        7 => Node::Cast { to: a, part: b },
        8 => Node::Fork { left: a, right: b, last: c },
        9 => Node::Lock { target: a, part: b },
        10 => Node::Number((a as u32 | (b as u32) << 16) as i32),
        _ => Node::Sum(a, b),
    }
}

/// Runs of records that owners have in order, so many each.
fn runs(counts: impl Iterator<Item = usize>) -> Vec<Range<usize>> {
    let mut at = 0;
    let mut run = |count: usize| {
        at += count;
        at - count..at
    };
    counts.map(&mut run).collect()
}

impl Node {
    /// The parts, in the order in which they run.
    pub fn parts(self) -> Vec<usize> {
        match self {
            Node::Write { part, .. } | Node::Call { part, .. } | Node::Cast { part, .. } | Node::Lock { part, .. } => {
                vec![part]
            }
            Node::Let { first, last, .. } => vec![first, last],
            Node::Fork { left, right, last } => vec![left, right, last],
            _ => vec![],
        }
    }
}

impl Script {
    /// The script of an accepted file.
    pub fn of(file: Vec<u8>, text: Option<Text>) -> Script {
        let section = |section| records(&file, section).1;
        let nodes: Vec<Node> = section(Section::Node).iter().map(|words| node(words)).collect();
        let methods: Vec<Method> = section(Section::Method)
            .iter()
            .map(|words| Method { name: words[0], parameter: words[1], result: words[2], body: words[3] })
            .collect();
        let classes = section(Section::Class);
        let fields = runs(classes.iter().map(|words| words[1]));
        let owned = runs(classes.iter().map(|words| words[2]));
        let class = |(i, words): (usize, &Vec<usize>)| Class {
            interface: words[0],
            fields: fields[i].clone(),
            methods: owned[i].clone(),
        };
        Script {
            interfaces: section(Section::Interface).len(),
            classes: classes.iter().enumerate().map(class).collect(),
            fields: section(Section::Field).iter().map(|w| Field { name: w[0], type_number: w[1] }).collect(),
            owners: owners(&nodes, &methods),
            methods,
            nodes,
            file,
            text,
        }
    }

    /// The type number of Int.
    pub fn int(&self) -> usize {
        self.interfaces + self.classes.len() + 1
    }

    /// The class of a type number that is a class's.
    pub fn class(&self, type_number: usize) -> Option<&Class> {
        self.classes.get(type_number.checked_sub(self.interfaces + 1)?)
    }

    /// The fields of a class, by its type number.
    pub fn fields_of(&self, class: usize) -> &[Field] {
        self.class(class).map_or(&[], |class| &self.fields[class.fields.clone()])
    }

    /// Which field of a class has this name.
    pub fn field_index(&self, class: usize, name: usize) -> Option<usize> {
        self.fields_of(class).iter().position(|field| field.name == name)
    }

    /// The method of a class that has this name, by its record's number.
    pub fn method_of(&self, class: usize, name: usize) -> Option<usize> {
        self.class(class)?.methods.clone().find(|&method| self.methods[method].name == name)
    }

    fn reading(&self) -> Option<&Reading> {
        self.text.as_ref().map(|text| &text.reading)
    }

    /// A type's name: that of the text, or its number behind a T.
    pub fn type_name(&self, type_number: usize) -> String {
        match type_number {
            0 => "Unit".into(),
            n if n == self.int() => "Int".into(),
            n => named(self.reading().map(|reading| &reading.types), n, "T"),
        }
    }

    pub fn field_name(&self, name: usize) -> String {
        named(self.reading().map(|reading| &reading.fields), name, "f")
    }

    pub fn method_name(&self, name: usize) -> String {
        named(self.reading().map(|reading| &reading.methods), name, "m")
    }

    /// A variable's name at a node, since the parameter has the name that its method gives it.
    pub fn variable_name(&self, node: usize, variable: usize) -> String {
        let owner = self.owners.get(node).copied().flatten();
        match (variable, self.reading(), owner) {
            (0, _, _) => "this".into(),
            (1, Some(reading), Some(method)) => named(Some(&reading.parameters), method, "p"),
            (1, _, _) => "p".into(),
            (n, reading, _) => named(reading.map(|reading| &reading.variables), n, "v"),
        }
    }

    /// A node as the grammar writes it; parts that are not leaves are `..`.
    pub fn expression(&self, number: usize) -> String {
        let name = |variable| self.variable_name(number, variable);
        let part = |part: usize| self.part(part);
        match self.nodes[number] {
            Node::Null => "null".into(),
            Node::Variable(x) => name(x),
            Node::Read { target, field } => format!("{}.{}", name(target), self.field_name(field)),
            Node::Write { target, field, part: value } => {
                format!("{}.{} = {}", name(target), self.field_name(field), part(value))
            }
            Node::Call { target, method, part: argument } => {
                format!("{}.{}({})", name(target), self.method_name(method), part(argument))
            }
            Node::Let { variable, first, .. } => format!("let {} = {} in ..", name(variable), part(first)),
            Node::New { class } => format!("new {}", self.type_name(class)),
            Node::Cast { to, part: operand } => format!("({}) {}", self.type_name(to), part(operand)),
            Node::Fork { .. } => "finish { async { .. } async { .. } }; ..".into(),
            Node::Lock { target, .. } => format!("lock({}) in ..", name(target)),
            Node::Number(number) => number.to_string(),
            Node::Sum(x, y) => format!("{} + {}", name(x), name(y)),
        }
    }

    /// A part within another expression: whole if it has no part itself.
    fn part(&self, number: usize) -> String {
        if self.nodes[number].parts().is_empty() {
            self.expression(number)
        } else {
            "..".into()
        }
    }
}

/// The name with this number, or the number behind a letter where there is no text.
fn named(names: Option<&Vec<String>>, number: usize, letter: &str) -> String {
    match names.and_then(|names| names.get(number)) {
        Some(name) => name.clone(),
        None => format!("{letter}{number}"),
    }
}

fn owners(nodes: &[Node], methods: &[Method]) -> Vec<Option<usize>> {
    let mut owners = vec![None; nodes.len()];
    for (number, method) in methods.iter().enumerate() {
        owners[method.body] = Some(number);
    }
    // Parts have larger numbers than their nodes.
    for number in 0..nodes.len() {
        for part in nodes[number].parts() {
            owners[part] = owners[number];
        }
    }
    owners
}
