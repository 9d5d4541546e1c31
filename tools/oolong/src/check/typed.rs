//! Why questions 9 to 15 get a no. The file's shape is sound here.

use super::types::{Meaning, Types, Wanter};
use crate::script::{records, Node, Script, Section};

/// A record as the grammar writes it.
pub fn shown(script: &Script, section: Section, at: usize) -> Option<String> {
    match section {
        Section::Node if at < script.nodes.len() => Some(script.expression(at)),
        Section::Interface => {
            let words = records(&script.file, section).1.into_iter().nth(at)?;
            let (left, right) = (script.type_name(words[1]), script.type_name(words[2]));
            Some(format!("interface {} extends {left}, {right}", script.type_name(at + 1)))
        }
        Section::Class => {
            let class = script.classes.get(at)?;
            let name = script.type_name(script.interfaces + 1 + at);
            Some(format!("class {name} implements {} {{..}}", script.type_name(class.interface)))
        }
        _ => None,
    }
}

/// Where a node is: in the start, or in a method of a class.
pub fn within(script: &Script, node: usize) -> String {
    let Some(method) = script.owners.get(node).copied().flatten() else { return "in the start".into() };
    let class = script.classes.iter().position(|class| class.methods.contains(&method)).unwrap_or(0);
    let class = script.type_name(script.interfaces + 1 + class);
    format!("in {} of {class}", script.method_name(script.methods[method].name))
}

pub fn reason(script: &Script, number: u16, at: usize) -> Option<String> {
    let types = Types::of(script);
    match number {
        9 => join(script, &types, at + 1),
        10 => class(script, &types, at),
        _ if at >= script.nodes.len() => None,
        11 => variable(script, &types, at),
        12 => Some("say its type with a cast: (T) null, where T is Unit, an interface or a class".into()),
        13 => member(script, &types, at),
        14 => fit(script, &types, at),
        15 => shared(script, &types, at),
        _ => None,
    }
}

fn meaning(script: &Script, name: usize, (parameter, result): Meaning) -> String {
    format!("{}({}) : {}", script.method_name(name), script.type_name(parameter), script.type_name(result))
}

fn join(script: &Script, types: &Types, join: usize) -> Option<String> {
    let above = types.above(join).into_iter();
    let all: Vec<(usize, usize, Meaning)> =
        above.flat_map(|of| types.listed(of).into_iter().map(move |(name, meaning)| (of, name, meaning))).collect();
    all.iter().enumerate().find_map(|(i, &(first_of, name, first))| {
        let other = all[i + 1..].iter().find(|(_, other, second)| *other == name && *second != first)?;
        let (first_of, second_of) = (script.type_name(first_of), script.type_name(other.0));
        let (first, second) = (meaning(script, name, first), meaning(script, name, other.2));
        Some(format!("{first_of} has {first}, and {second_of} has {second}"))
    })
}

fn class(script: &Script, types: &Types, at: usize) -> Option<String> {
    let number = script.interfaces + 1 + at;
    let mut wanted = types.above(number).into_iter().flat_map(|of| types.listed(of).into_iter().map(move |s| (of, s)));
    let (of, (name, signature)) = wanted.find(|(_, (name, meaning))| types.method(number, *name) != Some(*meaning))?;
    let wanted = format!("{} wants {}", script.type_name(of), meaning(script, name, signature));
    Some(match types.method(number, name) {
        None => format!("{wanted}, and it has no {}", script.method_name(name)),
        Some(other) => format!("{wanted}, and it has {}", meaning(script, name, other)),
    })
}

fn variable(script: &Script, types: &Types, at: usize) -> Option<String> {
    let variable = Types::used(script.nodes[at]).into_iter().find(|&x| !types.is_bound(at, x))?;
    let name = script.variable_name(at, variable);
    Some(match variable {
        0 => "the start is in no method, so it has no this".into(),
        1 => "the start is in no method, so it has no parameter".into(),
        _ => format!("nothing binds {name} here; a let binds its variable behind its 'in' only"),
    })
}

/// Names in a row, or `none`.
fn listed(names: Vec<String>) -> String {
    match names.len() {
        0 => "none".into(),
        _ => names.join(", "),
    }
}

fn member(script: &Script, types: &Types, at: usize) -> Option<String> {
    let target = *Types::used(script.nodes[at]).first()?;
    let of = types.variable(at, target)?;
    let is = format!("{} is of type {}", script.variable_name(at, target), script.type_name(of));
    match script.nodes[at] {
        Node::Lock { .. } if of == script.int() => Some(format!("{is}, and a number has no lock")),
        Node::Read { field, .. } | Node::Write { field, .. } if types.field(of, field).is_none() => {
            Some(format!("{is}, which has no field {}; {}", script.field_name(field), fields(script, of)))
        }
        Node::Call { method, .. } if types.method(of, method).is_none() => {
            Some(format!("{is}, which has no method {}; {}", script.method_name(method), methods(script, types, of)))
        }
        _ => None,
    }
}

fn fields(script: &Script, of: usize) -> String {
    if script.class(of).is_none() {
        return "only classes have fields".into();
    }
    let names = script.fields_of(of).iter().map(|field| script.field_name(field.name));
    format!("its fields: {}", listed(names.collect()))
}

fn methods(script: &Script, types: &Types, of: usize) -> String {
    if of == 0 || of == script.int() {
        return "only interfaces and classes have methods".into();
    }
    let mut numbers: Vec<usize> = match script.class(of) {
        Some(class) => class.methods.clone().map(|method| script.methods[method].name).collect(),
        None => types.above(of).into_iter().flat_map(|of| types.listed(of)).map(|(name, _)| name).collect(),
    };
    numbers.sort_unstable();
    numbers.dedup();
    format!("its methods: {}", listed(numbers.into_iter().map(|name| script.method_name(name)).collect()))
}

fn fit(script: &Script, types: &Types, at: usize) -> Option<String> {
    if let Node::Sum(x, y) = script.nodes[at] {
        let of = |variable| types.variable(at, variable).filter(|&of| of != script.int()).map(|of| (variable, of));
        if let Some((variable, of)) = of(x).or_else(|| of(y)) {
            let (name, of) = (script.variable_name(at, variable), script.type_name(of));
            return Some(format!("{of} where Int is wanted, for {name}; both variables of a sum are numbers"));
        }
    }
    let (wanted, wanter) = types.wanted(at)?;
    let by = wanter_in_words(script, wanter);
    let name = script.type_name(wanted);
    if script.nodes[at] == Node::Null {
        return (wanted == script.int()).then(|| format!("null where Int is wanted{by}; a null is no number"));
    }
    let inferred = types.inferred(at)?;
    if types.below(inferred, wanted) {
        return None;
    }
    let up = matches!(wanter, Wanter::Cast) && types.below(wanted, inferred);
    let up = if up { "; a cast goes up only, as from a class to its interface" } else { "" };
    Some(format!("{} where {name} is wanted{by}{up}", script.type_name(inferred)))
}

fn wanter_in_words(script: &Script, wanter: Wanter) -> String {
    match wanter {
        Wanter::Field { class, name } => {
            format!(", for the field {} of {}", script.field_name(name), script.type_name(class))
        }
        Wanter::Parameter { of, name } => {
            format!(", for the parameter of {} of {}", script.method_name(name), script.type_name(of))
        }
        Wanter::Cast => ", by the cast".into(),
        Wanter::Result { method } => {
            format!(", as the result of {}", script.method_name(script.methods[method].name))
        }
    }
}

fn shared(script: &Script, types: &Types, at: usize) -> Option<String> {
    let Node::Fork { left, right, .. } = script.nodes[at] else { return None };
    let right = types.free(right);
    let (variable, _) = types.free(left).into_iter().find(|(x, _)| right.iter().any(|(y, _)| x == y))?;
    let name = script.variable_name(at, variable);
    Some(format!(
        "both use {name}; bind its value to a second variable in front of the fork, with let other = {name} in"
    ))
}
