//! Random derivations of the grammar as tokens, of any size, with few names for all sorts, so that one spelling is often a type, a method, a field, a parameter and a variable.

use crate::generate::Rng;
use crate::spelling::{any_name, any_token, new_name};
use std::collections::HashSet;

/// How many records of each section a text is to have.
#[derive(Clone, Copy, Debug, Default)]
pub struct Shape {
    pub interfaces: usize,
    /// None where there is no interface.
    pub signatures: usize,
    pub classes: usize,
    /// None of these where there is no class.
    pub fields: usize,
    pub methods: usize,
    /// At least one for each method.
    pub body_nodes: usize,
    /// At least one.
    pub start_nodes: usize,
}

/// One in so many is at fault; 0 for none.
#[derive(Clone, Copy, Default)]
pub struct Odds {
    pub undeclared: usize,
    pub again: usize,
    pub out_of_range: usize,
    /// Where a name, a type, a variable or an integer is due there is any token.
    pub misfit: usize,
}

/// A text of this shape, as tokens.
pub fn derive(shape: Shape, odds: Odds, rng: &mut Rng) -> Vec<String> {
    let mut deriver = Deriver::new(shape.interfaces + shape.classes, odds, rng);
    deriver.interfaces(shape.interfaces, shape.signatures);
    deriver.classes(shape);
    deriver.parameter = None;
    deriver.expression(shape.start_nodes.max(1));
    deriver.tokens
}

/// Expressions in expressions, until the text has about this length, in the body of a method or as the start; not all are closed where that is to be.
pub fn derive_deep(length: usize, all_closed: bool, odds: Odds, rng: &mut Rng) -> Vec<String> {
    let (in_body, only) = (rng.one_in(2), if rng.one_in(3) { None } else { Some(rng.below(WRAPPINGS.len())) });
    let mut deriver = Deriver::new(2, odds, rng);
    deriver.say("interface");
    deriver.declare(0);
    deriver.say("{ } class");
    deriver.declare(1);
    deriver.say("implements %T {");
    if in_body {
        deriver.method_head();
    } else {
        deriver.say("}");
    }
    let mut ends = deriver.wrappings(length, only);
    deriver.say("%e");
    if !all_closed {
        let kept = deriver.rng.below(ends.len() + 1);
        ends.drain(..ends.len() - kept);
    }
    deriver.tokens.extend(ends.into_iter().rev().flatten());
    if in_body {
        deriver.say("} } %e");
    }
    deriver.tokens
}

/// Expressions around a part: what stands before it, and behind it.
const WRAPPINGS: [[&str; 2]; 9] = [
    ["%x . %m (", ")"],
    ["( %t )", ""],
    ["let %y =", "in %e"],
    ["let %y = %e in", ""],
    ["finish { async {", "} async { %e } } ; %e"],
    ["finish { async { %e } async {", "} } ; %e"],
    ["finish { async { %e } async { %e } } ;", ""],
    ["lock ( %x ) in", ""],
    ["%x . %m =", ""],
];

const LEAVES: [&str; 7] = ["null", "%x", "%x . %m", "new %T", "%x + %x", "( %x + %x )", "%n"];

/// Expressions with as many parts, and what stands before, between and behind them.
const WITH_ONE_PART: [[&str; 2]; 5] =
    [["( %t )", ""], ["lock ( %x ) in", ""], ["%x . %m =", ""], ["%x . %m (", ")"], ["%x . %m (", ")"]];
const LET: [&str; 3] = ["let %y =", "in", ""];
const FORK: [&str; 4] = ["finish { async {", "} async {", "} } ;", ""];

struct Deriver<'r> {
    rng: &'r mut Rng,
    tokens: Vec<String>,
    odds: Odds,
    names: Vec<String>,
    /// All different.
    types: Vec<String>,
    parameter: Option<String>,
    /// Give most of a budget to one part.
    deep: bool,
}

impl<'r> Deriver<'r> {
    /// With so many types that may be named.
    fn new(count: usize, odds: Odds, rng: &'r mut Rng) -> Deriver<'r> {
        let names: Vec<String> = (0..2 + rng.below(7)).map(|_| any_name(rng, 0)).collect();
        let (mut types, mut taken) = (vec![], HashSet::new());
        for index in 0..count {
            let shared = names.get(index).filter(|name| !taken.contains(*name) && !rng.one_in(3)).cloned();
            let name = shared.unwrap_or_else(|| new_name(rng, |name| taken.contains(name)));
            taken.insert(name.clone());
            types.push(name);
        }
        let deep = rng.one_in(3);
        Deriver { rng, tokens: vec![], odds, names, types, parameter: None, deep }
    }

    /// These tokens, but for each of `%m` a name, for `%t` a type, for `%T` the name of one, for `%x` a variable, for `%y` one that a let binds, for `%n` an integer, for `%e` an expression without parts.
    fn say(&mut self, all: &str) {
        for word in all.split(' ').filter(|word| !word.is_empty()) {
            let token = match word {
                "%m" => self.name(),
                "%t" => self.ty(),
                "%T" => self.type_name(),
                "%x" => self.variable(),
                "%y" => self.binder(),
                "%n" => self.integer(),
                "%e" => {
                    let leaf = LEAVES[self.rng.below(LEAVES.len())];
                    self.say(leaf);
                    continue;
                }
                _ => {
                    self.tokens.push(word.into());
                    continue;
                }
            };
            let token = self.fit(token);
            self.tokens.push(token);
        }
    }

    fn happens(&mut self, one_in: usize) -> bool {
        one_in > 0 && self.rng.one_in(one_in)
    }

    /// The token, but for a fault.
    fn fit(&mut self, token: String) -> String {
        if self.happens(self.odds.misfit) {
            return any_token(self.rng);
        }
        token
    }

    fn name(&mut self) -> String {
        self.names[self.rng.below(self.names.len())].clone()
    }

    /// Where a type must be named: one of those that are declared, but for a fault or where there is none.
    fn type_name(&mut self) -> String {
        if self.types.is_empty() || self.happens(self.odds.undeclared) {
            return any_name(self.rng, 2);
        }
        self.types[self.rng.below(self.types.len())].clone()
    }

    fn ty(&mut self) -> String {
        match self.rng.below(if self.types.is_empty() { 2 } else { 6 }) {
            0 => "Unit".into(),
            1 => "Int".into(),
            _ => self.type_name(),
        }
    }

    /// The name of the declaration with this number, but for a fault.
    fn declare(&mut self, number: usize) {
        let number = if self.happens(self.odds.again) { self.rng.below(self.types.len()) } else { number };
        let name = self.fit(self.types[number].clone());
        self.tokens.push(name);
    }

    fn interfaces(&mut self, count: usize, signatures: usize) {
        let mut rest = signatures;
        for index in 0..count {
            let is_last = index + 1 == count;
            self.say("interface");
            self.declare(index);
            if self.rng.one_in(3) && !(is_last && rest > 0) {
                self.say("extends %T , %T");
                continue;
            }
            self.say("{");
            for _ in 0..self.share(&mut rest, is_last) {
                self.signature();
            }
            self.say("}");
        }
    }

    /// What one owner gets of the rest: the last gets it all.
    fn share(&mut self, rest: &mut usize, is_last: bool) -> usize {
        let most = [1, 3, *rest][self.rng.below(3)];
        let share = if is_last { *rest } else { self.rng.below(most.min(*rest) + 1) };
        *rest -= share;
        share
    }

    fn classes(&mut self, shape: Shape) {
        let (mut fields, mut methods, mut nodes) = (shape.fields, shape.methods, shape.body_nodes);
        for index in 0..shape.classes {
            let is_last = index + 1 == shape.classes;
            self.say("class");
            self.declare(shape.interfaces + index);
            self.say("implements %T {");
            for _ in 0..self.share(&mut fields, is_last) {
                self.say("%m : %t");
            }
            let before = methods;
            for method in 0..self.share(&mut methods, is_last) {
                self.method(&mut nodes, before - method - 1);
            }
            self.say("}");
        }
    }

    /// A method with its share of the nodes, of which so many later methods need one each.
    fn method(&mut self, nodes: &mut usize, later: usize) {
        let spare = nodes.saturating_sub(later).max(1);
        let own = if later == 0 { spare } else { 1 + self.rng.below((2 * spare / (later + 1)).min(spare)) };
        *nodes = nodes.saturating_sub(own);
        self.method_head();
        self.expression(own);
        self.say("}");
    }

    /// Answers the parameter.
    fn signature(&mut self) -> String {
        let name = self.name();
        let parameter = self.fit(name);
        self.say(&format!("%m ( {parameter} : %t ) : %t"));
        parameter
    }

    fn method_head(&mut self) {
        self.say("def");
        self.parameter = Some(self.signature());
        self.say("{");
    }

    /// Often the parameter's name, also where a let hides it.
    fn variable(&mut self) -> String {
        match (self.rng.below(8), &self.parameter) {
            (0, _) => "this".into(),
            (1..=3, Some(parameter)) => parameter.clone(),
            _ => self.name(),
        }
    }

    fn binder(&mut self) -> String {
        match &self.parameter {
            Some(parameter) if self.rng.one_in(2) => parameter.clone(),
            _ => self.name(),
        }
    }

    /// An expression of so many nodes.
    fn expression(&mut self, nodes: usize) {
        match (nodes, self.rng.below(8)) {
            (..=1, _) => self.say("%e"),
            (4.., 0) => self.with_parts(nodes, FORK),
            (3.., 1..=3) => self.with_parts(nodes, LET),
            _ => {
                let around = WITH_ONE_PART[self.rng.below(WITH_ONE_PART.len())];
                self.with_parts(nodes, around);
            }
        }
    }

    /// An expression of so many nodes, with these around its parts.
    fn with_parts<const N: usize>(&mut self, nodes: usize, around: [&str; N]) {
        let mut rest = nodes - 1;
        let favourite = self.rng.below(N - 1);
        self.say(around[0]);
        for part in 0..N - 1 {
            let later = N - 2 - part;
            let most = if self.deep && part != favourite { 1 } else { rest - later };
            let own = if later == 0 || (self.deep && part == favourite) { most } else { 1 + self.rng.below(most) };
            rest -= own;
            self.expression(own);
            self.say(around[part + 1]);
        }
    }

    /// Says what stands before a part, again and again until the text has about this length, and answers what stands behind each part.
    fn wrappings(&mut self, length: usize, only: Option<usize>) -> Vec<Vec<String>> {
        let mut ends = vec![];
        let mut bytes = 0;
        while bytes < length {
            let [before, behind] = WRAPPINGS[only.unwrap_or_else(|| self.rng.below(WRAPPINGS.len()))];
            let begin = self.tokens.len();
            self.say(before);
            let middle = self.tokens.len();
            self.say(behind);
            // A blank stands beside most words.
            let is_word = |token: &String| token.starts_with(|first: char| first.is_alphabetic());
            bytes += self.tokens[begin..].iter().map(|token| token.len() + usize::from(is_word(token))).sum::<usize>();
            ends.push(self.tokens.split_off(middle));
        }
        ends
    }

    /// An integer's tokens, often at an end of the range, or beyond it where that is to be.
    fn integer(&mut self) -> String {
        let is_negative = self.rng.one_in(2);
        if is_negative {
            self.tokens.push("-".into());
        }
        let least_beyond = (1u128 << 31) + u128::from(is_negative);
        let size = match self.rng.below(4) {
            _ if self.happens(self.odds.out_of_range) => self.beyond(least_beyond),
            0 => least_beyond - 1 - self.rng.below(3) as u128,
            1 => u128::from(self.rng.number().unsigned_abs() >> 1),
            _ => self.rng.below(12) as u128,
        };
        let zeros = if self.rng.one_in(4) { 1 + self.rng.below(30) } else { 0 };
        format!("{}{size}", "0".repeat(zeros))
    }

    /// A size out of the range: right behind its end, a little more than some power of two, or any.
    fn beyond(&mut self, least: u128) -> u128 {
        let near = self.rng.below(20) as u128;
        match self.rng.below(4) {
            0 | 1 => least + near % 3,
            2 => (1 << [32, 33, 63, 64, 65, 127][self.rng.below(6)]) + near,
            _ => (u128::from(self.rng.bits()) << self.rng.below(64)).max(least),
        }
    }
}
