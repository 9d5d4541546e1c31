//! Accepted scripts as text, and what a script becomes on the way to a text and back: numbers and the order of nodes are then those that request 4 gives.

use crate::expr::{number, parts, parts_mut, NUMBER, SUM};
use crate::generate::Rng;
use crate::script::Script;
use crate::spelling::{new_name, Blanks};
use std::collections::{BTreeMap, BTreeSet, HashSet};

const THIS: u16 = 0;
const PARAMETER: u16 = 1;

/// A text of the script, as tokens. Names of different sorts are often spelled alike, and a parameter sometimes as a let's variable that does not capture it.
pub fn tokens(script: &Script, rng: &mut Rng) -> Vec<String> {
    let lets = script.nodes.iter().filter(|node| node[0] == 5).map(|node| node[1]);
    let mut printer = Printer {
        script,
        types: Spellings::of(1..script.int_type(), rng),
        methods: Spellings::of(script.method_names(), rng),
        fields: Spellings::of(script.field_names(), rng),
        variables: Spellings::of(lets, rng),
        rng,
        tokens: vec![],
    };
    printer.program();
    printer.tokens
}

/// A text of the script with blanks, where that is short enough, else with the fewest.
pub fn text(script: &Script, rng: &mut Rng) -> Vec<u8> {
    let tokens = tokens(script, rng);
    let text = crate::spelling::join(&tokens, Blanks::random(rng), rng);
    if text.len() <= crate::text::LONGEST_TEXT {
        text
    } else {
        crate::spelling::join(&tokens, Blanks::Fewest, rng)
    }
}

impl Script {
    fn method_names(&self) -> impl Iterator<Item = u16> + '_ {
        let calls = self.nodes.iter().filter(|node| node[0] == 4).map(|node| node[2]);
        let declared = self.signatures.iter().map(|record| record[0]);
        declared.chain(self.methods.iter().map(|record| record[0])).chain(calls)
    }

    fn field_names(&self) -> impl Iterator<Item = u16> + '_ {
        let uses = self.nodes.iter().filter(|node| [2, 3].contains(&node[0])).map(|node| node[2]);
        self.fields.iter().map(|record| record[0]).chain(uses)
    }
}

/// A spelling for each number of one sort of names.
struct Spellings(BTreeMap<u16, String>);

impl Spellings {
    fn of(numbers: impl Iterator<Item = u16>, rng: &mut Rng) -> Spellings {
        let mut taken = HashSet::new();
        let mut spellings = BTreeMap::new();
        for number in numbers {
            spellings.entry(number).or_insert_with(|| {
                let name = new_name(rng, |name| taken.contains(name));
                taken.insert(name.clone());
                name
            });
        }
        Spellings(spellings)
    }

    fn name(&self, number: u16) -> String {
        self.0[&number].clone()
    }
}

struct Printer<'s, 'r> {
    script: &'s Script,
    types: Spellings,
    methods: Spellings,
    fields: Spellings,
    variables: Spellings,
    rng: &'r mut Rng,
    tokens: Vec<String>,
}

impl Printer<'_, '_> {
    /// Tokens, with a blank between them.
    fn say(&mut self, all: &str) {
        self.tokens.extend(all.split_whitespace().map(String::from));
    }

    fn ty(&self, ty: u16) -> String {
        match ty {
            0 => "Unit".into(),
            _ if ty == self.script.int_type() => "Int".into(),
            _ => self.types.name(ty),
        }
    }

    fn program(&mut self) {
        let script = self.script;
        for ((ty, &[form, left, right]), run) in (1..).zip(&script.interfaces).zip(script.signature_runs()) {
            self.say(&format!("interface {}", self.ty(ty)));
            if form == 1 {
                self.say(&format!("extends {} , {}", self.ty(left), self.ty(right)));
                continue;
            }
            self.say("{");
            for signature in &script.signatures[run] {
                let parameter = new_name(self.rng, |_| false);
                self.signature(signature, &parameter);
            }
            self.say("}");
        }
        for (index, (fields, methods)) in script.field_runs().zip(script.method_runs()).enumerate() {
            let [interface, ..] = script.classes[index];
            let own = self.ty(script.class_type(index));
            self.say(&format!("class {own} implements {} {{", self.ty(interface)));
            for &[name, ty] in &script.fields[fields] {
                self.say(&format!("{} : {}", self.fields.name(name), self.ty(ty)));
            }
            script.methods[methods].iter().for_each(|method| self.method(method));
            self.say("}");
        }
        self.expression(0, "");
    }

    fn signature(&mut self, &[name, from, to]: &[u16; 3], parameter: &str) {
        let (from, to) = (self.ty(from), self.ty(to));
        self.say(&format!("{} ( {parameter} : {from} ) : {to}", self.methods.name(name)));
    }

    fn method(&mut self, &[name, from, to, body]: &[u16; 4]) {
        let parameter = self.parameter(body);
        self.say("def");
        self.signature(&[name, from, to], &parameter);
        self.say("{");
        self.expression(body, &parameter);
        self.say("}");
    }

    /// A name for the parameter of a body: one that none of the body's variables has, or that of a let that does not capture it.
    fn parameter(&mut self, body: u16) -> String {
        let mut lets = Lets::default();
        lets.walk(self.script, body, &mut vec![]);
        let harmless: Vec<u16> = lets.all.difference(&lets.capturing).copied().collect();
        match self.rng.pick(&harmless) {
            Some(variable) if self.rng.one_in(2) => self.variables.name(variable),
            _ => {
                let taken: HashSet<String> = lets.all.iter().map(|&variable| self.variables.name(variable)).collect();
                new_name(self.rng, |name| taken.contains(name))
            }
        }
    }

    fn variable(&self, variable: u16, parameter: &str) -> String {
        match variable {
            THIS => "this".into(),
            PARAMETER => parameter.into(),
            _ => self.variables.name(variable),
        }
    }

    /// The expression of a node.
    fn expression(&mut self, node: u16, parameter: &str) {
        let words = &self.script.nodes[node as usize];
        let head = self.head(*words, parameter);
        self.say(&head);
        let behind = match words[0] {
            4 => [")", "", ""],
            5 => ["in", "", ""],
            8 => ["} async {", "} } ;", ""],
            _ => [""; 3],
        };
        for (&part, behind) in parts(words).iter().zip(behind) {
            self.expression(part, parameter);
            self.say(behind);
        }
    }

    /// The tokens of a node before its first part.
    fn head(&mut self, [kind, a, b, _]: [u16; 4], parameter: &str) -> String {
        let variable = |variable| self.variable(variable, parameter);
        match kind {
            0 => "null".into(),
            1 => variable(a),
            2 => format!("{} . {}", variable(a), self.fields.name(b)),
            3 => format!("{} . {} =", variable(a), self.fields.name(b)),
            4 => format!("{} . {} (", variable(a), self.methods.name(b)),
            5 => format!("let {} =", variable(a)),
            6 => format!("new {}", self.ty(a)),
            7 => format!("( {} )", self.ty(a)),
            8 => "finish { async {".into(),
            9 => format!("lock ( {} ) in", variable(a)),
            NUMBER => integer(number(a, b), self.rng),
            SUM => {
                let sum = format!("{} + {}", variable(a), variable(b));
                if self.rng.one_in(2) {
                    sum
                } else {
                    format!("( {sum} )")
                }
            }
            _ => unreachable!("an accepted script has no node of kind {kind}"),
        }
    }
}

/// A number's tokens; 0 may have a minus, and there may be zeros before it.
fn integer(number: i32, rng: &mut Rng) -> String {
    let minus = if number < 0 || (number == 0 && rng.one_in(2)) { "- " } else { "" };
    let zeros = if rng.one_in(4) { 1 + rng.below(12) } else { 0 };
    format!("{minus}{}{}", "0".repeat(zeros), number.unsigned_abs())
}

/// The variables that lets of a body bind, and those in whose second part the parameter occurs.
#[derive(Default)]
struct Lets {
    all: BTreeSet<u16>,
    capturing: BTreeSet<u16>,
}

impl Lets {
    fn walk(&mut self, script: &Script, node: u16, around: &mut Vec<u16>) {
        let words = &script.nodes[node as usize];
        if variables(words).any(|&variable| variable == PARAMETER) {
            self.capturing.extend(around.iter());
        }
        if let &[5, variable, first, second] = words {
            self.all.insert(variable);
            self.walk(script, first, around);
            around.push(variable);
            self.walk(script, second, around);
            around.pop();
            return;
        }
        parts(words).iter().for_each(|&part| self.walk(script, part, around));
    }
}

/// The words of a node that are variables.
fn variables(node: &[u16; 4]) -> impl Iterator<Item = &u16> {
    let words = match node[0] {
        1..=5 | 9 => 1..2,
        SUM => 1..3,
        _ => 0..0,
    };
    node[words].iter()
}

/// The same script with the numbers of request 4: methods, fields and variables by first appearance in the text, nodes in preorder, the start before the bodies.
pub fn renumbered(script: &Script) -> Script {
    let mut numbers = Numbers::default();
    let bodies: Vec<Vec<u16>> = script.methods.iter().map(|method| preorder(script, method[3])).collect();
    let start = preorder(script, 0);
    for &[name, ..] in &script.signatures {
        Numbers::appear(&mut numbers.methods, name, 0);
    }
    for (fields, methods) in script.field_runs().zip(script.method_runs()) {
        for &[name, _] in &script.fields[fields] {
            Numbers::appear(&mut numbers.fields, name, 0);
        }
        for method in methods {
            Numbers::appear(&mut numbers.methods, script.methods[method][0], 0);
            bodies[method].iter().for_each(|&node| numbers.node(&script.nodes[node as usize]));
        }
    }
    start.iter().for_each(|&node| numbers.node(&script.nodes[node as usize]));
    let order: Vec<u16> = start.into_iter().chain(bodies.into_iter().flatten()).collect();
    numbers.nodes = (0..).zip(&order).map(|(new, &old)| (old, new)).collect();
    numbers.rewrite(script, &order)
}

/// The nodes of an expression, itself first, then those of its parts in running order.
fn preorder(script: &Script, root: u16) -> Vec<u16> {
    let mut order = vec![];
    let mut to_come = vec![root];
    while let Some(node) = to_come.pop() {
        order.push(node);
        to_come.extend(parts(&script.nodes[node as usize]).iter().rev());
    }
    order
}

/// New numbers by old ones.
#[derive(Default)]
struct Numbers {
    methods: BTreeMap<u16, u16>,
    fields: BTreeMap<u16, u16>,
    variables: BTreeMap<u16, u16>,
    nodes: BTreeMap<u16, u16>,
}

impl Numbers {
    fn appear(numbers: &mut BTreeMap<u16, u16>, old: u16, first: u16) {
        let next = first + numbers.len() as u16;
        numbers.entry(old).or_insert(next);
    }

    fn node(&mut self, node: &[u16; 4]) {
        for &variable in variables(node).filter(|&&variable| variable > PARAMETER) {
            Numbers::appear(&mut self.variables, variable, 2);
        }
        match *node {
            [2 | 3, _, field, _] => Numbers::appear(&mut self.fields, field, 0),
            [4, _, method, _] => Numbers::appear(&mut self.methods, method, 0),
            _ => {}
        }
    }

    fn rewrite(&self, script: &Script, order: &[u16]) -> Script {
        let mut new = script.clone();
        new.signatures.iter_mut().for_each(|record| record[0] = self.methods[&record[0]]);
        new.fields.iter_mut().for_each(|record| record[0] = self.fields[&record[0]]);
        for record in &mut new.methods {
            (record[0], record[3]) = (self.methods[&record[0]], self.nodes[&record[3]]);
        }
        new.nodes = order.iter().map(|&old| self.rewritten(script.nodes[old as usize])).collect();
        new
    }

    fn rewritten(&self, mut node: [u16; 4]) -> [u16; 4] {
        let variable = |word: &mut u16| *word = self.variables.get(word).copied().unwrap_or(*word);
        match node[0] {
            1..=5 | 9 => variable(&mut node[1]),
            SUM => node[1..3].iter_mut().for_each(variable),
            _ => {}
        }
        match node[0] {
            2 | 3 => node[2] = self.fields[&node[2]],
            4 => node[2] = self.methods[&node[2]],
            _ => {}
        }
        parts_mut(&mut node).iter_mut().for_each(|part| *part = self.nodes[part]);
        node
    }
}
