//! What 35 and 36 ask of a derivation. Each gathers the faulty tokens' offsets, and the place is the least.

use crate::script::LIMITS;
use crate::text::grammar::{Class, Form, Interface, InterfaceForm, Method, Name, Node, Program, Signature, Type};
use std::collections::{HashMap, HashSet};

impl<'t> Program<'t> {
    /// The names that are declared, in text order.
    pub fn declared(&self) -> impl Iterator<Item = Name<'t>> + '_ {
        let interfaces = self.interfaces.iter().map(|interface| interface.name);
        interfaces.chain(self.classes.iter().map(|class| class.name))
    }

    /// By each declared name its number: that of its first declaration, counted from 1.
    pub fn types(&self) -> HashMap<&'t [u8], u16> {
        let mut types = HashMap::new();
        for (number, name) in (1..).zip(self.declared()) {
            types.entry(name.spelling).or_insert(number);
        }
        types
    }

    /// The names that stand where a type must.
    fn type_uses(&self) -> Vec<Name<'t>> {
        let interfaces = self.interfaces.iter().flat_map(Interface::type_uses);
        let classes = self.classes.iter().flat_map(Class::type_uses);
        interfaces.chain(classes).chain(self.nodes.iter().filter_map(Node::type_use)).collect()
    }

    /// 35: "a type name is declared nowhere or again".
    pub fn declaration_fault(&self) -> Option<usize> {
        let mut declared = HashSet::new();
        let again: Vec<Name> = self.declared().filter(|name| !declared.insert(name.spelling)).collect();
        let nowhere = self.type_uses().into_iter().filter(|name| !declared.contains(name.spelling));
        nowhere.chain(again).map(|name| name.at).min()
    }

    /// 36: "a table limit or the range of Int is passed".
    pub fn limit_fault(&self) -> Option<usize> {
        let records = self.records();
        let too_many = records.iter().zip(LIMITS).filter_map(|(offsets, limit)| offsets.get(limit).copied());
        let out_of_range = self.nodes.iter().filter(|node| match node.form {
            Form::Integer { negative, digits } => integer(negative, digits).is_none(),
            _ => false,
        });
        too_many.chain(out_of_range.map(|node| node.at)).min()
    }

    /// By section, the offsets of its records' first tokens in text order.
    fn records(&self) -> [Vec<usize>; 6] {
        let fields = self.classes.iter().flat_map(|class| &class.fields);
        let methods = self.classes.iter().flat_map(|class| &class.methods);
        [
            self.interfaces.iter().map(|interface| interface.at).collect(),
            self.interfaces.iter().flat_map(Interface::signatures).map(|signature| signature.method.at).collect(),
            self.classes.iter().map(|class| class.at).collect(),
            fields.map(|field| field.name.at).collect(),
            methods.map(|method| method.at).collect(),
            self.nodes.iter().map(|node| node.at).collect(),
        ]
    }
}

impl<'t> Interface<'t> {
    pub fn signatures(&self) -> &[Signature<'t>] {
        match &self.form {
            InterfaceForm::List(signatures) => signatures,
            InterfaceForm::Join(_) => &[],
        }
    }

    fn type_uses(&self) -> Vec<Name<'t>> {
        match &self.form {
            InterfaceForm::List(signatures) => signatures.iter().flat_map(Signature::type_uses).collect(),
            InterfaceForm::Join(parents) => parents.to_vec(),
        }
    }
}

impl<'t> Class<'t> {
    fn type_uses(&self) -> Vec<Name<'t>> {
        let fields = self.fields.iter().filter_map(|field| field.ty.name());
        let methods = self.methods.iter().flat_map(|method: &Method| method.signature.type_uses());
        [self.interface].into_iter().chain(fields).chain(methods).collect()
    }
}

impl<'t> Signature<'t> {
    fn type_uses(&self) -> Vec<Name<'t>> {
        self.types.iter().filter_map(Type::name).collect()
    }
}

impl<'t> Node<'t> {
    fn type_use(&self) -> Option<Name<'t>> {
        match self.form {
            Form::New(class) => Some(class),
            Form::Cast(ty) => ty.name(),
            _ => None,
        }
    }
}

impl<'t> Type<'t> {
    fn name(&self) -> Option<Name<'t>> {
        match self {
            Type::Declared(name) => Some(*name),
            Type::Unit | Type::Int => None,
        }
    }
}

/// The number that digits spell, if it is one of Int; a text may have thousands of them.
pub fn integer(negative: bool, digits: &[u8]) -> Option<i32> {
    let mut size = 0i64;
    for digit in digits {
        size = 10 * size + i64::from(digit - b'0');
        if size > 1 << 31 {
            return None;
        }
    }
    i32::try_from(if negative { -size } else { size }).ok()
}
