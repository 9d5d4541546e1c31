//! The file of a derivation: its names get their numbers, its nodes theirs, and every production its record.

use crate::expr::{number_words, CAST, NEW, NUMBER, SUM};
use crate::script::Script;
use crate::text::faults::integer;
use crate::text::grammar::{Class, Expression, Form, InterfaceForm, Name, Program, Signature, Type, Variable};
use std::collections::HashMap;

/// Variables: `this`, an occurrence that the parameter binds, and the first of the others.
const THIS: u16 = 0;
const PARAMETER: u16 = 1;
const FIRST_OTHER: u16 = 2;

/// The script of a program without faults.
pub fn script(program: &Program) -> Script {
    let mut writer = Writer::new(program);
    program.interfaces.iter().for_each(|interface| writer.interface(&interface.form));
    program.classes.iter().for_each(|class| writer.class(class));
    writer.expression(&program.start, None);
    writer.script
}

/// Names of one sort, "numbered by first appearance from 0".
#[derive(Default)]
struct Names<'t>(HashMap<&'t [u8], u16>);

impl<'t> Names<'t> {
    fn number(&mut self, spelling: &'t [u8]) -> u16 {
        let next = self.0.len() as u16;
        *self.0.entry(spelling).or_insert(next)
    }
}

/// Goes through a program in text order.
struct Writer<'t, 'p> {
    program: &'p Program<'t>,
    script: Script,
    types: HashMap<&'t [u8], u16>,
    methods: Names<'t>,
    fields: Names<'t>,
    variables: Names<'t>,
    /// "Nodes go in preorder, parts as they run, the start before the bodies": the file's number of each node of the text.
    numbers: Vec<u16>,
}

impl<'t, 'p> Writer<'t, 'p> {
    fn new(program: &'p Program<'t>) -> Writer<'t, 'p> {
        let mut numbers = vec![0; program.nodes.len()];
        for (number, node) in program.start.clone().chain(0..program.start.start).enumerate() {
            numbers[node] = number as u16;
        }
        Writer {
            program,
            script: Script { nodes: vec![[0; 4]; numbers.len()], ..Script::default() },
            types: program.types(),
            methods: Names::default(),
            fields: Names::default(),
            variables: Names::default(),
            numbers,
        }
    }

    fn interface(&mut self, form: &InterfaceForm<'t>) {
        match form {
            InterfaceForm::List(signatures) => {
                self.script.interfaces.push([0, signatures.len() as u16, 0]);
                for signature in signatures {
                    let words = self.signature(signature);
                    self.script.signatures.push(words);
                }
            }
            InterfaceForm::Join([left, right]) => self.script.interfaces.push([1, self.named(left), self.named(right)]),
        }
    }

    fn class(&mut self, class: &Class<'t>) {
        let counts = [class.fields.len(), class.methods.len()].map(|count| count as u16);
        self.script.classes.push([self.named(&class.interface), counts[0], counts[1]]);
        for field in &class.fields {
            let name = self.fields.number(field.name.spelling);
            self.script.fields.push([name, self.ty(&field.ty)]);
        }
        for method in &class.methods {
            let [name, from, to] = self.signature(&method.signature);
            self.script.methods.push([name, from, to, self.numbers[method.body.start]]);
            self.expression(&method.body, Some(method.signature.parameter.spelling));
        }
    }

    fn signature(&mut self, signature: &Signature<'t>) -> [u16; 3] {
        let [from, to] = signature.types.each_ref().map(|ty| self.ty(ty));
        [self.methods.number(signature.method.spelling), from, to]
    }

    fn named(&self, name: &Name) -> u16 {
        self.types[name.spelling]
    }

    fn ty(&self, ty: &Type) -> u16 {
        match ty {
            Type::Unit => 0,
            Type::Declared(name) => self.named(name),
            Type::Int => (self.program.interfaces.len() + self.program.classes.len()) as u16 + 1,
        }
    }

    /// A body with its parameter, or the start, which has none.
    fn expression(&mut self, nodes: &Expression, parameter: Option<&'t [u8]>) {
        // Whether a let of the parameter's name has the node in its second part. Parts stand behind their node.
        let mut hidden = vec![false; nodes.len()];
        for index in nodes.clone() {
            let node = &self.program.nodes[index];
            let is_hidden = hidden[index - nodes.start];
            let parts: Vec<u16> = node.parts.iter().map(|&part| self.numbers[part]).collect();
            let words = self.words(&node.form, parameter.filter(|_| !is_hidden), &parts);
            self.script.nodes[self.numbers[index] as usize] = words;
            for (which, part) in node.parts.iter().enumerate() {
                let rebinds = matches!(node.form, Form::Let(name) if which == 1 && Some(name) == parameter);
                hidden[part - nodes.start] = is_hidden || rebinds;
            }
        }
    }

    /// A node's record with the numbers of its parts; the parameter is none where it is hidden.
    fn words(&mut self, form: &Form<'t>, parameter: Option<&[u8]>, parts: &[u16]) -> [u16; 4] {
        match *form {
            Form::Null => [0; 4],
            Form::Variable(x) => [1, self.variable(x, parameter), 0, 0],
            Form::Read(x, field) => [2, self.variable(x, parameter), self.fields.number(field), 0],
            Form::Update(x, field) => [3, self.variable(x, parameter), self.fields.number(field), parts[0]],
            Form::Call(x, method) => [4, self.variable(x, parameter), self.methods.number(method), parts[0]],
            Form::Let(name) => [5, FIRST_OTHER + self.variables.number(name), parts[0], parts[1]],
            Form::New(class) => [NEW, self.named(&class), 0, 0],
            Form::Cast(ty) => [CAST, self.ty(&ty), parts[0], 0],
            Form::Fork => [8, parts[0], parts[1], parts[2]],
            Form::Lock(x) => [9, self.variable(x, parameter), parts[0], 0],
            Form::Integer { negative, digits } => {
                let [low, high] = number_words(integer(negative, digits).expect("no integer is out of range"));
                [NUMBER, low, high, 0]
            }
            Form::Sum([one, other]) => [SUM, self.variable(one, parameter), self.variable(other, parameter), 0],
        }
    }

    fn variable(&mut self, variable: Variable<'t>, parameter: Option<&[u8]>) -> u16 {
        match variable {
            Variable::This => THIS,
            Variable::Named(name) if Some(name) == parameter => PARAMETER,
            Variable::Named(name) => FIRST_OTHER + self.variables.number(name),
        }
    }
}
