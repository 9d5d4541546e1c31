//! Types: who is below whom, which members a type has, and questions 8 to 10.

use crate::script::{Script, Section};
use crate::{Question, Refusal};
use std::collections::HashSet;
use std::ops::Range;

/// 0 is Unit, then come the interfaces, then the classes, and at the end Int.
pub type Type = u16;
pub const UNIT: Type = 0;
/// "Has each class at most 8 fields?"
const MOST_FIELDS: u16 = 8;

/// A method name with its types, ordered by name first.
#[derive(Clone, Copy, Debug, PartialEq, Eq, PartialOrd, Ord)]
pub struct Signature {
    pub name: u16,
    pub parameter: Type,
    pub result: Type,
}

/// Tables by type number, each built once so that no chain is walked again by a later question.
pub struct Types {
    interfaces: Type,
    /// "Type I+C+1 is Int, a signed 32-bit number."
    pub int: Type,
    /// Bit i: the type is below interface i+1. (Above a type are only itself and interfaces.)
    ancestors: Vec<u64>,
    /// The methods, sorted by name, each name once.
    methods: Vec<Vec<Signature>>,
    /// The field records of a class; Unit, interfaces and Int have none.
    fields: Vec<Vec<[u16; 2]>>,
}

impl Types {
    /// Asks questions 8 to 10 and builds the tables.
    pub fn of(script: &Script) -> Result<Types, Refusal> {
        names_are_unique(script)?;
        let interfaces = script.interfaces.len() as Type;
        let int = script.int_type();
        let mut types = Types { interfaces, int, ancestors: vec![0], methods: vec![vec![]], fields: vec![vec![]] };
        types.add_interfaces(script)?;
        types.add_classes(script)?;
        types.add(0, vec![], vec![]); // "Int is below only itself", and no target
        Ok(types)
    }

    /// Question 9: "Do all meanings of a method name in a join have the same types?"
    fn add_interfaces(&mut self, script: &Script) -> Result<(), Refusal> {
        for (index, (&[form, left, right], run)) in script.interfaces.iter().zip(script.signature_runs()).enumerate() {
            let own_bit = 1 << index;
            let (ancestors, methods) = if form == 0 {
                (own_bit, sorted(&script.signatures[run]))
            } else {
                let (left, right) = (left as usize, right as usize);
                let joined = join(&self.methods[left], &self.methods[right])
                    .ok_or_else(|| script.refusal(Question::Joins, Section::Interfaces, index))?;
                (own_bit | self.ancestors[left] | self.ancestors[right], joined)
            };
            self.add(ancestors, methods, vec![]);
        }
        Ok(())
    }

    /// Question 10: "Has each class every method of its interface, with the same types?"
    fn add_classes(&mut self, script: &Script) -> Result<(), Refusal> {
        let runs = script.field_runs().zip(script.method_runs());
        for (index, (&[interface, ..], (fields, methods))) in script.classes.iter().zip(runs).enumerate() {
            let own = sorted(&script.methods[methods]);
            if !self.methods[interface as usize].iter().all(|asked| own.binary_search(asked).is_ok()) {
                return Err(script.refusal(Question::Classes, Section::Classes, index));
            }
            self.add(self.ancestors[interface as usize], own, script.fields[fields].to_vec());
        }
        Ok(())
    }

    /// The next type.
    fn add(&mut self, ancestors: u64, methods: Vec<Signature>, fields: Vec<[u16; 2]>) {
        self.ancestors.push(ancestors);
        self.methods.push(methods);
        self.fields.push(fields);
    }

    /// "A type is below itself, ... and so on upward along every chain. Unit is below only itself", and so is Int.
    pub fn below(&self, lower: Type, upper: Type) -> bool {
        let is_interface = (1..=self.interfaces).contains(&upper);
        lower == upper || is_interface && self.ancestors[lower as usize] >> (upper - 1) & 1 == 1
    }

    /// "Null does not fit Int", and fits every other type.
    pub fn null_fits(&self, ty: Type) -> bool {
        ty != self.int
    }

    /// The method of this name, of a class's own or of an interface; Unit and Int have none.
    pub fn method(&self, ty: Type, name: u16) -> Option<Signature> {
        let methods = &self.methods[ty as usize];
        methods.binary_search_by_key(&name, |method| method.name).ok().map(|found| methods[found])
    }

    /// The type of the field of this name; "field targets must have class type".
    pub fn field(&self, ty: Type, name: u16) -> Option<Type> {
        self.fields[ty as usize].iter().find(|field| field[0] == name).map(|field| field[1])
    }

    /// The field records of a class, in the order of declaration.
    pub fn fields(&self, class: Type) -> &[[u16; 2]] {
        &self.fields[class as usize]
    }

    pub fn is_type(&self, ty: Type) -> bool {
        (ty as usize) < self.ancestors.len()
    }

    pub fn is_class(&self, ty: Type) -> bool {
        ty > self.interfaces && ty < self.int
    }
}

/// The signatures that these signature or method records begin with, by name.
fn sorted<const W: usize>(records: &[[u16; W]]) -> Vec<Signature> {
    let signature = |record: &[u16; W]| Signature { name: record[0], parameter: record[1], result: record[2] };
    let mut signatures: Vec<Signature> = records.iter().map(signature).collect();
    signatures.sort_unstable();
    signatures
}

/// The methods of both parents, or nothing where they disagree about a name.
fn join(left: &[Signature], right: &[Signature]) -> Option<Vec<Signature>> {
    let mut both = [left, right].concat();
    both.sort(); // merges two sorted runs
    both.dedup();
    both.is_sorted_by(|one, next| one.name < next.name).then_some(both)
}

/// Question 8: "names unique in each list, each class's fields and each class's methods (the
/// later record is at fault)", "at most 8 fields" (the class is at fault).
fn names_are_unique(script: &Script) -> Result<(), Refusal> {
    let faults = [
        (Section::Signatures, first_repeat(script.signature_runs(), |index| script.signatures[index][0])),
        (Section::Classes, script.classes.iter().position(|&[_, fields, _]| fields > MOST_FIELDS)),
        (Section::Fields, first_repeat(script.field_runs(), |index| script.fields[index][0])),
        (Section::Methods, first_repeat(script.method_runs(), |index| script.methods[index][0])),
    ];
    script.refuse_first(Question::Names, faults)
}

/// The first record whose name an earlier record of its run has.
fn first_repeat(mut runs: impl Iterator<Item = Range<usize>>, name: impl Fn(usize) -> u16) -> Option<usize> {
    let mut seen = HashSet::new();
    runs.find_map(|mut run| {
        seen.clear();
        run.find(|&index| !seen.insert(name(index)))
    })
}
