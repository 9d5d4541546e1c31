//! Questions 4 to 7: each record by itself, owners' counts, and how nodes hang together.
//! Records are asked in file order, so the first fault is the one with the lowest offset.

use crate::expr::{parts, Expr, CAST, NEW};
use crate::script::{Script, Section};
use crate::{Question, Refusal};

/// Asks questions 4 to 7 and decodes the nodes, each then used once (node 0 never).
pub fn expressions(script: &Script) -> Result<Vec<Expr>, Refusal> {
    interfaces_in_order(script)?;
    counts_add_up(script)?;
    types_exist(script)?;
    nodes_in_order(script)
}

/// Question 4: "of form 0 or 1, with 0 or earlier parents".
fn interfaces_in_order(script: &Script) -> Result<(), Refusal> {
    let fits = |index: usize, record: &[u16; 3]| match *record {
        [0, _, unused] => unused == 0,
        // The record's own type is index + 1, so earlier types are 1 to index.
        [1, left, right] => [left, right].iter().all(|&parent| (1..=index).contains(&(parent as usize))),
        _ => false,
    };
    let fault = script.interfaces.iter().enumerate().position(|(index, record)| !fits(index, record));
    script.refuse_first(Question::Interfaces, [(Section::Interfaces, fault)])
}

/// Question 5: "Do owners' counts add up to each section's count?" The last run must end there.
fn counts_add_up(script: &Script) -> Result<(), Refusal> {
    let signatures = script.signature_runs().last().map_or(0, |run| run.end);
    let fields = script.field_runs().last().map_or(0, |run| run.end);
    let methods = script.method_runs().last().map_or(0, |run| run.end);
    if [signatures, fields, methods] == [script.signatures.len(), script.fields.len(), script.methods.len()] {
        Ok(())
    } else {
        Err(Refusal { question: Question::Owners, place: 0 })
    }
}

/// Question 6: "every type word a type, a class's interface an interface, a `new` operand a class".
fn types_exist(script: &Script) -> Result<(), Refusal> {
    let (interfaces, int) = (script.class_type(0) - 1, script.int_type());
    let is_type = |ty: u16| ty <= int;
    let are_types = |parameter: u16, result: u16| is_type(parameter) && is_type(result);
    let is_interface = |ty: u16| (1..=interfaces).contains(&ty);
    let node_fits = |kind: u16, a: u16| match kind {
        NEW => a > interfaces && a < int,
        CAST => is_type(a),
        _ => true,
    };
    let faults = [
        (Section::Signatures, script.signatures.iter().position(|&[_, one, two]| !are_types(one, two))),
        (Section::Classes, script.classes.iter().position(|&[interface, ..]| !is_interface(interface))),
        (Section::Fields, script.fields.iter().position(|&[_, ty]| !is_type(ty))),
        (Section::Methods, script.methods.iter().position(|&[_, one, two, _]| !are_types(one, two))),
        (Section::Nodes, script.nodes.iter().position(|&[kind, a, ..]| !node_fits(kind, a))),
    ];
    script.refuse_first(Question::Types, faults)
}

/// Question 7. A use is any part or body word equal to the node's number, in order or not.
fn nodes_in_order(script: &Script) -> Result<Vec<Expr>, Refusal> {
    let count = script.nodes.len();
    let exists = |node: u16| (node as usize) < count;
    let mut uses = vec![0u16; count];
    let bodies = script.methods.iter().map(|method| &method[3]);
    for &word in bodies.chain(script.nodes.iter().flat_map(parts)) {
        if exists(word) {
            uses[word as usize] += 1;
        }
    }
    // "A missing body is the method's fault, any other misuse the node's."
    let bodiless = script.methods.iter().position(|&[_, _, _, body]| !exists(body));
    script.refuse_first(Question::Nodes, [(Section::Methods, bodiless)])?;
    let decode = |(index, node): (usize, &[u16; 4])| {
        let used_as_asked = uses[index] == u16::from(index != 0);
        let parts_in_order = parts(node).iter().all(|&part| part as usize > index && exists(part));
        Expr::decode(*node)
            .filter(|_| used_as_asked && parts_in_order)
            .ok_or_else(|| script.refusal(Question::Nodes, Section::Nodes, index))
    };
    script.nodes.iter().enumerate().map(decode).collect()
}
