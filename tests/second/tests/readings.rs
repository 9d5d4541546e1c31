//! Numbers and places where document 01 needed a reading, and the order of the walk.

use second::check;
use second::script::{Script, Section, Section::*};

/// Types: I = 1 (m from Unit to I), J = 2 (empty), C = 3 of I with field f: J, D = 4 of J, Int = 5.
/// The start is (Unit)null; C's m answers null.
fn base() -> Script {
    Script {
        interfaces: vec![[0, 1, 0], [0, 0, 0]],
        signatures: vec![[10, 0, 1]],
        classes: vec![[1, 1, 1], [2, 0, 0]],
        fields: vec![[20, 2]],
        methods: vec![[10, 0, 1, 2]],
        nodes: vec![[7, 0, 1, 0], [0; 4], [0; 4]],
    }
}

fn answers(change: impl Fn(&mut Script), number: u16, place: Option<(Section, usize)>) {
    let mut script = base();
    change(&mut script);
    let reply = check(&script.encode());
    assert_eq!((reply.number, reply.place), (number, place.map_or(0, |(section, index)| script.place(section, index))));
}

/// The start becomes these nodes, with numbers from 0; the method's body comes last.
fn start(nodes: &[[u16; 4]], number: u16, node: usize) {
    let change = |script: &mut Script| {
        script.methods[0][3] = nodes.len() as u16;
        script.nodes = [nodes, &[[0; 4]]].concat();
    };
    answers(change, number, (number > 0).then_some((Nodes, node)));
}

#[test]
fn interfaces_and_counts() {
    answers(|_| {}, 0, None);
    answers(|script| script.interfaces[1] = [2, 0, 0], 4, Some((Interfaces, 1)));
    answers(|script| script.interfaces[1] = [0, 0, 1], 4, Some((Interfaces, 1)));
    answers(|script| script.interfaces[1] = [1, 1, 2], 4, Some((Interfaces, 1)));
    answers(|script| script.interfaces[1] = [1, 0, 1], 4, Some((Interfaces, 1)));
    answers(|script| script.interfaces[1] = [0, 1, 0], 5, None);
    answers(|script| script.classes[1][2] = 65_535, 5, None);
}

#[test]
fn type_words() {
    answers(|script| script.signatures[0][1] = 6, 6, Some((Signatures, 0)));
    answers(|script| script.classes[1][0] = 3, 6, Some((Classes, 1)));
    answers(|script| script.classes[1][0] = 0, 6, Some((Classes, 1)));
    answers(|script| script.fields[0][1] = 6, 6, Some((Fields, 0)));
    answers(|script| script.methods[0][2] = 6, 6, Some((Methods, 0)));
    answers(|script| script.nodes[0][1] = 6, 6, Some((Nodes, 0)));
    answers(|script| script.nodes[2] = [6, 2, 0, 0], 6, Some((Nodes, 2)));
}

#[test]
fn uses_of_nodes() {
    answers(|script| script.methods[0][3] = 3, 7, Some((Methods, 0)));
    answers(|script| script.methods[0][3] = 0, 7, Some((Nodes, 0)));
    answers(|script| script.methods[0][3] = 1, 7, Some((Nodes, 1)));
    answers(|script| script.nodes[0][2] = 9, 7, Some((Nodes, 0)));
    answers(|script| script.nodes.push([0; 4]), 7, Some((Nodes, 3)));
    answers(|script| script.nodes[2] = [0, 0, 0, 1], 7, Some((Nodes, 2)));
    answers(|script| script.nodes[2] = [1, 0, 1, 0], 7, Some((Nodes, 2)));
    // A word that is out of order still uses its node: node 1 is used twice.
    answers(|script| script.nodes[2] = [7, 0, 1, 0], 7, Some((Nodes, 1)));
    // A node of unknown kind has no parts: node 1 is used by nobody, but node 0 comes first.
    answers(|script| script.nodes[0][0] = 12, 7, Some((Nodes, 0)));
    answers(|script| (script.nodes[0], script.methods[0][3]) = ([5, 1, 1, 2], 3), 7, Some((Methods, 0)));
}

#[test]
fn names_joins_and_classes() {
    let two_signatures = |script: &mut Script| {
        script.interfaces[0][1] = 2;
        script.signatures.push([10, 0, 1]);
    };
    answers(two_signatures, 8, Some((Signatures, 1)));
    let nine_fields = |script: &mut Script, twice: bool| {
        script.classes[0][1] = 9;
        script.fields.extend((21..29).map(|name| [if twice { 20 } else { name }, 2]));
    };
    answers(|script| nine_fields(script, false), 8, Some((Classes, 0)));
    answers(|script| nine_fields(script, true), 8, Some((Classes, 0)));
    let disagreeing = |script: &mut Script| {
        script.interfaces = vec![[0, 1, 0], [0, 1, 0], [1, 1, 2], [1, 3, 3]];
        script.signatures = vec![[10, 0, 1], [10, 1, 1]];
    };
    answers(disagreeing, 9, Some((Interfaces, 2)));
    answers(|script| script.methods[0][1] = 1, 10, Some((Classes, 0)));
    answers(|script| script.methods[0][0] = 11, 10, Some((Classes, 0)));
    answers(|script| script.classes[1][0] = 1, 10, Some((Classes, 1)));
}

#[test]
fn one_walk() {
    let new_c = [6, 3, 0, 0];
    start(&[[1, 0, 0, 0]], 11, 0); // the start has no `this`
    start(&[[9, 1, 1, 0], [0; 4]], 11, 0); // the target before the part
    start(&[[5, 2, 1, 2], [0; 4], [1, 9, 0, 0]], 12, 1); // parts in running order
    start(&[[5, 2, 1, 2], [1, 2, 0, 0], new_c], 11, 1); // a variable is not bound in its own first part
    start(&[[5, 2, 1, 2], new_c, [4, 2, 99, 3], [1, 9, 0, 0]], 13, 2); // the method before the argument
    start(&[[5, 2, 1, 2], new_c, [4, 2, 10, 3], [1, 2, 0, 0]], 14, 3); // the argument itself
    start(&[[5, 2, 1, 2], new_c, [3, 2, 20, 3], [6, 3, 0, 0]], 14, 3); // the value itself
    start(&[[5, 2, 1, 2], new_c, [3, 2, 20, 3], [6, 4, 0, 0]], 0, 0);
    start(&[[5, 2, 1, 3], [7, 1, 2, 0], new_c, [2, 2, 20, 0]], 13, 3); // fields only of class types
    start(&[[5, 2, 1, 3], [7, 1, 2, 0], new_c, [4, 2, 10, 4], [0; 4]], 0, 0); // methods also of interfaces
    start(&[[5, 2, 1, 3], [7, 0, 2, 0], [0; 4], [4, 2, 10, 4], [0; 4]], 13, 3); // Unit has none
}

#[test]
fn last_parts() {
    let (null, new_c, x) = ([0; 4], [6, 3, 0, 0], [1, 2, 0, 0]);
    start(&[[5, 2, 1, 2], new_c, null], 12, 2); // a start that ends in null
    start(&[[7, 1, 1, 0], [5, 2, 2, 3], new_c, null], 0, 0); // a checked let checks its last part
    start(&[[7, 2, 1, 0], [5, 2, 2, 3], new_c, x], 14, 3); // which is what does not fit
    start(&[[7, 2, 1, 0], [8, 2, 3, 4], new_c, new_c, [5, 2, 5, 6], new_c, x], 14, 6); // the innermost
    start(&[[7, 1, 1, 0], [8, 2, 3, 4], new_c, new_c, null], 0, 0); // so does a fork
    start(&[[7, 1, 1, 0], [8, 2, 3, 4], null, new_c, null], 12, 2); // whose asyncs are inferred
    start(&[[7, 1, 1, 0], [8, 2, 3, 4], new_c, [5, 2, 5, 6], null, new_c, null], 12, 6);
    start(&[[5, 2, 1, 2], new_c, [7, 1, 3, 0], [9, 2, 4, 0], null], 0, 0); // and a lock
    start(&[[7, 1, 1, 0], [9, 2, 2, 0], null], 11, 1); // whose target comes first
    start(&[[7, 1, 1, 0], [5, 2, 2, 3], [5, 3, 4, 5], x, new_c, null], 12, 5); // a let's first part is inferred
    start(&[[5, 2, 1, 2], new_c, [3, 2, 20, 3], [5, 3, 4, 5], new_c, null], 0, 0); // a written value
    start(&[[5, 2, 1, 2], new_c, [4, 2, 10, 3], [9, 2, 4, 0], null], 0, 0); // an argument
    let body = |nodes: Vec<[u16; 4]>| move |script: &mut Script| script.nodes.splice(2.., nodes.clone()).for_each(drop);
    answers(body(vec![[5, 2, 3, 4], new_c, null]), 0, None); // a body
    answers(body(vec![[5, 2, 3, 4], new_c, [9, 2, 5, 0], [6, 4, 0, 0]]), 14, Some((Nodes, 5)));
}

#[test]
fn free_variables() {
    let new_c = [6, 3, 0, 0];
    let this = [1, 0, 0, 0];
    answers(|script| script.nodes = vec![[7, 0, 1, 0], [0; 4], [8, 3, 4, 5], this, this, this], 15, Some((Nodes, 2)));
    // Sharing is asked before anything else at the fork, and an outer fork before an inner one.
    start(&[[8, 1, 2, 3], [1, 9, 0, 0], [1, 9, 0, 0], [0; 4]], 15, 0);
    start(&[[8, 1, 2, 3], [8, 4, 5, 6], [1, 9, 0, 0], [0; 4], [1, 8, 0, 0], [1, 8, 0, 0], [0; 4]], 15, 1);
    let in_last_part = [[8, 1, 2, 3], [8, 4, 5, 6], [1, 9, 0, 0], [0; 4], new_c, new_c, [1, 9, 0, 0]];
    start(&in_last_part, 15, 0);
    // A variable bound in both asyncs is free in neither.
    let both_bind = [[8, 1, 2, 3], [5, 2, 4, 5], [5, 2, 6, 7], new_c, new_c, [1, 2, 0, 0], new_c, [1, 2, 0, 0]];
    start(&both_bind, 0, 0);
    // It is free in the first part of its own let.
    start(&[[8, 1, 2, 3], [5, 2, 4, 5], [1, 2, 0, 0], [0; 4], [1, 2, 0, 0], new_c], 15, 0);
}
