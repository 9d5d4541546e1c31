//! Scripts at the limits.

use second::directed::sized;
use second::expr::parts_mut;
use second::script::Script;

/// Node numbers of `recursive`: where its method's body is.
pub const RECURSIVE_BODY: u16 = 4;
/// Node numbers of `beside`: where its asyncs and its last part are.
pub const BESIDE_LEFT: u16 = 1;
pub const BESIDE_CAST: u16 = 5;
pub const BESIDE_LAST: u16 = 7;

fn empty() -> Script {
    Script::default()
}

/// The program of the paper's Figure 10, as in samples/accept-figure10.words.
pub fn figure_ten() -> Script {
    let mut script = figure_ten_bare();
    script.signatures = vec![[0, 3, 0], [1, 3, 3]];
    script.fields = vec![[0, 3]];
    script.methods = vec![[2, 3, 0, 17], [0, 3, 0, 19], [1, 3, 3, 23]];
    for (node, number) in [(7, 0), (11, 1), (14, 2), (16, 0)] {
        script.nodes[node] = [10, number, 0, 0];
    }
    script.nodes[22] = [11, 2, 1, 0];
    script
}

/// The same without its integers.
pub fn figure_ten_bare() -> Script {
    Script {
        interfaces: vec![[0, 2, 0]],
        signatures: vec![[0, 1, 0], [1, 0, 1]],
        classes: vec![[1, 1, 3]],
        fields: vec![[0, 1]],
        methods: vec![[2, 1, 0, 17], [0, 1, 0, 19], [1, 0, 1, 23]],
        nodes: vec![
            [5, 2, 1, 2],
            [6, 2, 0, 0],
            [5, 3, 3, 5],
            [7, 1, 4, 0],
            [1, 2, 0, 0],
            [5, 4, 6, 8],
            [4, 2, 2, 7],
            [0; 4],
            [8, 9, 12, 15],
            [9, 2, 10, 0],
            [4, 2, 0, 11],
            [0; 4],
            [9, 3, 13, 0],
            [4, 3, 0, 14],
            [0; 4],
            [4, 2, 1, 16],
            [0; 4],
            [3, 0, 0, 18],
            [1, 1, 0, 0],
            [5, 2, 20, 21],
            [2, 0, 0, 0],
            [3, 0, 0, 22],
            [1, 1, 0, 0],
            [2, 0, 0, 0],
        ],
    }
}

/// Every section full where `scale` is 16: lists of 4 and of 12 signatures and as many joins of them, classes with 4 fields and the 4 methods of their list. Every body reads a field; half of
/// them write it back, half call a method of it through its interface.
pub fn largest(scale: u16) -> Script {
    let mut script = empty();
    let name = |list: u16, method: u16| 100 * list + method;
    for list in 0..2 * scale {
        let methods = if list < scale { 4 } else { 12 };
        script.interfaces.push([0, methods, 0]);
        script.signatures.extend((0..methods).map(|method| [name(list, method), list + 1, 0]));
    }
    script.interfaces.extend((0..2 * scale).map(|join| [1, 2 * scale + join, join + 1]));
    script.nodes.push([6, 4 * scale + 1, 0, 0]);
    for class in 0..4 * scale {
        let list = class % scale;
        script.classes.push([list + 1, 4, 4]);
        script.fields.extend((0..4).map(|field| [field, list + 1]));
        for method in 0..4 {
            let at = script.nodes.len() as u16;
            script.methods.push([name(list, method), list + 1, 0, at]);
            let last = if method % 2 == 0 { [3, 0, method, at + 3] } else { [4, 2, name(list, method), at + 3] };
            script.nodes.extend([[5, 2, at + 1, at + 2], [2, 0, method, 0], last, [1, 2, 0, 0]]);
        }
    }
    // The start and 256 bodies of 4 nodes are one too many: the last body has 3, a write of a cast null.
    let [.., last] = &script.methods[..] else { unreachable!() };
    let at = last[3];
    script.nodes.truncate(at as usize);
    script.nodes.extend([[3, 0, 0, at + 1], [7, scale, at + 2, 0], [0; 4]]);
    script
}

/// Joins that each name their predecessor twice; the class of the last has the one method; failed look-ups end the start, so the verdict is 13.
pub fn ladder(joins: u16) -> Script {
    let mut script = empty();
    script.interfaces.push([0, 4, 0]);
    script.signatures.extend((0..4).map(|name| [name, 0, 0]));
    script.interfaces.extend((1..=joins).map(|parent| [1, parent, parent]));
    script.classes.push([joins + 1, 0, 4]);
    let class = joins + 2;
    script.nodes.extend([[5, 2, 1, 3], [7, joins + 1, 2, 0], [6, class, 0, 0]]);
    // Calls through the last join, found at its first ancestor, in a chain of lets.
    for call in 0..40u16 {
        let at = 3 + 3 * call;
        script.nodes.extend([[5, 3, at + 1, at + 3], [4, 2, call % 4, at + 2], [0; 4]]);
    }
    let at = script.nodes.len() as u16;
    script.nodes.extend([[4, 2, 9, at + 1], [0; 4]]);
    for name in 0..4 {
        script.methods.push([name, 0, 0, script.nodes.len() as u16]);
        script.nodes.push([0; 4]);
    }
    script
}

/// Lets in lets, each binding a variable of its own, and at the bottom the first variable.
pub fn deepest(nodes: u16) -> Script {
    let mut script = Script { interfaces: vec![[0, 0, 0]], classes: vec![[1, 0, 0]], ..empty() };
    let lets = (nodes - 2) / 2;
    script.nodes.extend([[5, 2, 1, 2], [6, 2, 0, 0]]);
    for depth in 1..lets {
        let at = 2 * depth;
        script.nodes.extend([[5, 2 + depth, at + 1, at + 2], [1, 2 + depth / 2, 0, 0]]);
    }
    script.nodes.push([1, 2, 0, 0]);
    script
}

/// Casts in casts, and at the bottom a null: so many nodes, and as many silent moves in a row.
pub fn casts(nodes: usize) -> Script {
    sized([0, 0, 0, 0, 0, nodes])
}

/// Lets in lets, each binding a variable of its own to a cast null: no first part looks a variable up.
pub fn lets_of_nulls(lets: u16) -> Script {
    let mut script = Script { interfaces: vec![[0, 0, 0]], classes: vec![[1, 0, 0]], ..empty() };
    for depth in 0..lets {
        let at = 3 * depth;
        script.nodes.extend([[5, 2 + depth, at + 1, at + 3], [7, 2, at + 2, 0], [0; 4]]);
    }
    script.nodes.push([6, 2, 0, 0]);
    script
}

/// Forks whose asyncs and last parts are `new`s: each fork in the last part of the one before, or in its left async.
pub fn forks(count: u16, nested_left: bool) -> Script {
    let mut script = Script { interfaces: vec![[0, 0, 0]], classes: vec![[1, 0, 0]], ..empty() };
    for index in 0..count {
        let at = 3 * index;
        script.nodes.push(if nested_left { [8, at + 3, at + 1, at + 2] } else { [8, at + 1, at + 2, at + 3] });
        script.nodes.extend([[6, 2, 0, 0], [6, 2, 0, 0]]);
    }
    script.nodes.push([6, 2, 0, 0]);
    script
}

/// Forks in a chain beneath a cast, so that they are checked, with a null at the end.
pub fn forks_to_null(count: u16) -> Script {
    let mut script = forks(count, false);
    script.nodes.iter_mut().flat_map(|node| parts_mut(node)).for_each(|part| *part += 1);
    script.nodes.insert(0, [7, 2, 1, 0]);
    script.nodes[3 * usize::from(count) + 1] = [0; 4];
    script
}

/// Forks nested to the left, each right async with a variable of its own that an outer let binds.
pub fn forks_with_variables(count: u16) -> Script {
    let mut script = Script { interfaces: vec![[0, 0, 0]], classes: vec![[1, 0, 0]], ..empty() };
    for index in 0..count {
        let at = 2 * index;
        script.nodes.extend([[5, 2 + index, at + 1, at + 2], [6, 2, 0, 0]]);
    }
    let base = 2 * count;
    for index in 0..count {
        let at = base + 3 * index;
        script.nodes.extend([[8, at + 3, at + 1, at + 2], [1, 2 + index, 0, 0], [6, 2, 0, 0]]);
    }
    script.nodes.push([6, 2, 0, 0]);
    script
}

/// A method that calls itself: each call adds two bindings, until there is no room. As in samples/accept-endless.words.
pub fn endless() -> Script {
    Script {
        interfaces: vec![[0, 1, 0]],
        signatures: vec![[0, 0, 0]],
        classes: vec![[1, 0, 1]],
        methods: vec![[0, 0, 0, 4]],
        nodes: vec![[5, 2, 1, 2], [6, 2, 0, 0], [4, 2, 0, 3], [0; 4], [4, 0, 0, 5], [0; 4]],
        ..empty()
    }
}

/// A method that counts: m(x) = let y = this.f in let z = (this.f = y + x) in this.m(x), called with 1. Each round adds four bindings; a choice list ends before there is no room.
pub fn counting() -> Script {
    Script {
        interfaces: vec![[0, 1, 0]],
        signatures: vec![[0, 3, 3]],
        classes: vec![[1, 1, 1]],
        fields: vec![[0, 3]],
        methods: vec![[0, 3, 3, 4]],
        nodes: vec![
            [5, 2, 1, 2],
            [6, 2, 0, 0],
            [4, 2, 0, 3],
            [10, 1, 0, 0],
            [5, 2, 5, 6],
            [2, 0, 0, 0],
            [5, 3, 7, 9],
            [3, 0, 0, 8],
            [11, 2, 1, 0],
            [4, 0, 0, 10],
            [1, 1, 0, 0],
        ],
    }
}

/// A class with 8 fields of type Int, and a start that is a cast to Int.
pub fn full_numbers() -> Script {
    let fields = (0..8).map(|name| [name, 3]).collect();
    let nodes = vec![[7, 3, 1, 0], [10, 1, 0, 0]];
    Script { interfaces: vec![[0, 0, 0]], classes: vec![[1, 8, 0]], fields, nodes, ..empty() }
}

/// The same script with each `let`'s variable number so many times as far from the first.
pub fn spread(mut script: Script, apart: u16) -> Script {
    let spread = |variable: &mut u16| *variable = 2.min(*variable) + variable.saturating_sub(2) * apart;
    for [kind, a, b, _] in &mut script.nodes {
        match kind {
            1..=5 | 9 => spread(a),
            11 => [a, b].into_iter().for_each(spread),
            _ => {}
        }
    }
    script
}

/// Joins that each name their predecessor twice above a class, and as many casts as there is room for from the class to the first list, which ask all joins; at the end a cast of the class to
/// Unit, which asks them all in vain and is refused with 14, or none.
pub fn casts_up(joins: u16, to_unit: bool) -> Script {
    let mut script = joined(joins);
    script.nodes.extend([[5, 2, 1, 2], [6, joins + 2, 0, 0]]);
    add_casts(&mut script, 339, 2);
    let at = script.nodes.len() as u16;
    if to_unit {
        script.nodes.push([7, 0, at + 1, 0]);
    }
    script.nodes.push([1, 2, 0, 0]);
    script
}

/// A list, so many joins above it that each name their predecessor twice, and a class of the last.
fn joined(joins: u16) -> Script {
    let mut script = empty();
    script.interfaces.push([0, 0, 0]);
    script.interfaces.extend((1..=joins).map(|parent| [1, parent, parent]));
    script.classes.push([joins + 1, 0, 0]);
    script
}

/// Lets, one in another, of casts of this variable to type 1; their last part comes next.
fn add_casts(script: &mut Script, lets: u16, variable: u16) {
    for _ in 0..lets {
        let at = script.nodes.len() as u16;
        script.nodes.extend([[5, 3, at + 1, at + 3], [7, 1, at + 2, 0], [1, variable, 0, 0]]);
    }
}

/// m(x) = let y = this.m(x) in let z = (I1)this in .. so many times .. y, with so many joins between I1 and the class: a call leaves one let frame and two bindings.
pub fn recursive(joins: u16, lets: u16) -> Script {
    let mut script = joined(joins);
    script.interfaces[0] = [0, 1, 0];
    script.signatures.push([0, 1, 1]);
    script.classes[0][2] = 1;
    script.methods.push([0, 1, 1, RECURSIVE_BODY]);
    script.nodes.extend([[5, 2, 1, 2], [6, joins + 2, 0, 0], [4, 2, 0, 3], [0; 4]]);
    script.nodes.extend([[5, 2, 5, 7], [4, 0, 0, 6], [1, 1, 0, 0]]);
    add_casts(&mut script, lets, 0);
    script.nodes.push([1, 2, 0, 0]);
    script
}

/// A class with 8 fields of its own interface's type.
pub fn full_objects() -> Script {
    let fields = (0..8).map(|name| [name, 1]).collect();
    Script { interfaces: vec![[0, 0, 0]], classes: vec![[1, 8, 0]], fields, nodes: vec![[6, 2, 0, 0]], ..empty() }
}

/// A fork whose left async is `endless`, and whose right async is a cast.
pub fn beside() -> Script {
    let nodes = vec![
        [8, BESIDE_LEFT, BESIDE_CAST, BESIDE_LAST],
        [5, 2, 2, 3],
        [6, 2, 0, 0],
        [4, 2, 0, 4],
        [0; 4],
        [7, 1, 6, 0],
        [6, 2, 0, 0],
        [6, 2, 0, 0],
        [4, 0, 0, 9],
        [0; 4],
    ];
    Script { methods: vec![[0, 0, 0, 8]], nodes, ..endless() }
}
