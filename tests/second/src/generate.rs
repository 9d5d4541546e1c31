//! Random scripts: a seeded generator of numbers, and of well-typed scripts that use every kind
//! of node. It has its own model of types, so that it does not share the checker's mistakes.

use crate::expr::{number_words, parts, parts_mut, NUMBER, SUM};
use crate::script::{Script, LIMITS};
use crate::{counters::counters, damage::damage, directed::directed};
use std::collections::{BTreeMap, BTreeSet};

/// SplitMix64: small, seedable, the same everywhere.
#[derive(Default)]
pub struct Rng(u64);

impl Rng {
    pub fn new(seed: u64) -> Rng {
        Rng(seed)
    }

    pub fn bits(&mut self) -> u64 {
        self.0 = self.0.wrapping_add(0x9E37_79B9_7F4A_7C15);
        let mut z = self.0;
        z = (z ^ (z >> 30)).wrapping_mul(0xBF58_476D_1CE4_E5B9);
        z = (z ^ (z >> 27)).wrapping_mul(0x94D0_49BB_1331_11EB);
        z ^ (z >> 31)
    }

    /// A number below `bound` (0 if there is none).
    pub fn below(&mut self, bound: usize) -> usize {
        (self.bits() % bound.max(1) as u64) as usize
    }

    pub fn one_in(&mut self, n: usize) -> bool {
        self.below(n) == 0
    }

    pub fn pick<T: Copy>(&mut self, from: &[T]) -> Option<T> {
        from.get(self.below(from.len())).copied()
    }

    /// A number of Int: often around 0 or near an end of the range, else any.
    pub fn number(&mut self) -> i32 {
        let near = self.below(5) as i32;
        match self.below(8) {
            0..=3 => near - 2,
            4 => i32::MAX - near,
            5 => i32::MIN + near,
            6 => (self.bits() as i32) >> (8 * self.below(4)),
            _ => self.bits() as i32,
        }
    }

    /// Mostly a small word, as type, name, variable and node numbers are; sometimes any.
    pub fn word(&mut self) -> u16 {
        let bound = [4, 12, 80, 1 << 16][self.below(4)];
        self.below(bound) as u16
    }
}

/// Any script worth trying: well typed, damaged or with one directed fault.
pub fn any(rng: &mut Rng) -> Vec<u8> {
    match rng.below(8) {
        0 => well_typed(rng),
        1 if rng.one_in(2) => well_typed(rng),
        1 => counters(rng),
        2 | 3 => {
            let number = 1 + rng.below(15) as u16;
            directed(number, rng).script
        }
        _ => {
            let script = if rng.one_in(8) { counters(rng) } else { well_typed(rng) };
            damage(&script, rng)
        }
    }
}

/// A script that must be accepted.
pub fn well_typed(rng: &mut Rng) -> Vec<u8> {
    program(rng, None).0.encode()
}

/// A well-typed program, or one with a single no to question `fault` (11 to 15), and then the
/// faulty node, if the program had a place for it.
pub fn program(rng: &mut Rng, fault: Option<u16>) -> (Script, Option<usize>) {
    let mut sizes = sizes(rng);
    if fault.is_some() {
        sizes[5] = sizes[5].min(900); // room for the faulty expression
    }
    let most_wait = 1 << rng.below(9);
    let fault = fault.map(|number| (number, rng.below(most_wait)));
    build(rng, sizes, Generator { fault, ..Generator::default() })
}

/// A script that must be accepted and that runs on for a while: it makes objects where others
/// would have a null, calls, locks and forks often, and gives objects several names.
pub fn long_running(rng: &mut Rng) -> Vec<u8> {
    let most = [3, 4, 4, 12, 8, 200];
    let mut sizes = most.map(|most| 1 + rng.below(most));
    sizes[3] = sizes[3].min(8 * sizes[2]);
    build(rng, sizes, Generator { long_running: true, ..Generator::default() }).0.encode()
}

fn build(rng: &mut Rng, sizes: [usize; 6], generator: Generator) -> (Script, Option<usize>) {
    let [interfaces, signatures, classes, fields, methods, nodes] = sizes;
    let mut generator = Generator {
        rng: Rng::new(rng.bits()),
        types: 2 + interfaces + classes,
        variables: [3, 8, 65_534][rng.below(3)],
        deep: rng.one_in(3),
        ..generator
    };
    generator.declare_interfaces(interfaces, signatures);
    generator.declare_classes(classes, fields, methods);
    generator.write_bodies(nodes);
    let mut script = generator.script;
    let numbers = lay_out(&mut script, rng);
    (script, generator.faulty.map(|node| numbers[node as usize] as usize))
}

/// How many records of each section to aim for, from tiny to the limits.
fn sizes(rng: &mut Rng) -> [usize; 6] {
    let most = match rng.below(32) {
        0..=13 => [2, 3, 2, 4, 3, 12],
        14..=28 => [8, 16, 6, 16, 16, 100],
        _ => LIMITS,
    };
    let full = rng.one_in(2) && most == LIMITS;
    let mut sizes = most.map(|most| if full && !rng.one_in(4) { most } else { rng.below(most + 1) });
    match sizes[0] {
        0 => (sizes[1], sizes[2]) = (0, 0), // signatures and classes need an interface
        1 => sizes[1] = sizes[1].min(4),    // 64 classes must be able to implement the only one
        _ => {}
    }
    if sizes[2] == 0 {
        sizes[4] = 0;
    }
    sizes[3] = sizes[3].min(8 * sizes[2]);
    sizes
}

/// Renumbers the nodes at random so that parts come after their node and the start, kept at 0,
/// comes first; drops nodes not reached. Answers the new numbers.
pub(crate) fn lay_out(script: &mut Script, rng: &mut Rng) -> Vec<u16> {
    let mut numbers = vec![0; script.nodes.len()];
    let mut order = vec![0];
    let mut ready: Vec<u16> = parts(&script.nodes[0]).to_vec();
    ready.extend(script.methods.iter().map(|method| method[3]));
    let preorder = rng.one_in(3);
    while !ready.is_empty() {
        let next = if preorder { ready.len() - 1 } else { rng.below(ready.len()) };
        let node = ready.swap_remove(next) as usize;
        numbers[node] = order.len() as u16;
        order.push(node);
        ready.extend(parts(&script.nodes[node]));
    }
    let renumbered = order.iter().map(|&old| {
        let mut node = script.nodes[old];
        parts_mut(&mut node).iter_mut().for_each(|part| *part = numbers[*part as usize]);
        node
    });
    script.nodes = renumbered.collect();
    script.methods.iter_mut().for_each(|method| method[3] = numbers[method[3] as usize]);
    numbers
}

/// What an expression is made for.
#[derive(Clone, Copy)]
enum Goal {
    /// To be checked against this type. The type that is told of what is made says nothing then.
    Checked(u16),
    /// To be inferred, with this type or below.
    Inferred(Option<u16>),
}

impl Goal {
    fn upper(self) -> Option<u16> {
        match self {
            Goal::Checked(wanted) => Some(wanted),
            Goal::Inferred(goal) => goal,
        }
    }
}

#[derive(Default)]
struct Generator {
    rng: Rng,
    script: Script,
    /// How many types there are; the last is Int.
    types: usize,
    /// How many variables a let may bind: few, for shadowing, or many, for large environments.
    variables: usize,
    /// By type: the types it is below, its methods and its fields.
    above: Vec<BTreeSet<u16>>,
    methods: Vec<Vec<[u16; 3]>>,
    fields: Vec<Vec<[u16; 2]>>,
    /// The variables that may be used here, and all that are bound (asyncs divide them).
    environment: BTreeMap<u16, u16>,
    bound: Vec<u16>,
    /// Give most of a budget to one part.
    deep: bool,
    /// Prefer what keeps a thread running.
    long_running: bool,
    /// The question to get a no, and how many occasions to let pass; then the node that got it.
    fault: Option<(u16, usize)>,
    faulty: Option<u16>,
}

impl Generator {
    fn add_type(&mut self, above: BTreeSet<u16>, methods: Vec<[u16; 3]>, fields: Vec<[u16; 2]>) {
        self.above.push(above);
        self.methods.push(methods);
        self.fields.push(fields);
    }

    fn int(&self) -> u16 {
        self.types as u16 - 1
    }

    /// A quarter of the types that are declared are Int.
    fn any_type(&mut self) -> u16 {
        if self.rng.one_in(4) {
            return self.int();
        }
        self.rng.below(self.types) as u16
    }

    /// A name not taken yet; few names, so that owners often have them in common.
    fn fresh_name<const W: usize>(&mut self, taken: &[[u16; W]]) -> u16 {
        loop {
            let name = if taken.len() > 5 { self.rng.word() } else { self.rng.below(10) as u16 };
            if taken.iter().all(|other| other[0] != name) {
                return name;
            }
        }
    }

    /// Each list belongs to a family within which a name has one meaning, and joins stay in a
    /// family; so joins agree, although other families give a name other types.
    fn declare_interfaces(&mut self, count: usize, signatures: usize) {
        self.add_type(BTreeSet::from([0]), vec![], vec![]); // Unit
        let families = 1 + self.rng.below(3);
        let mut family: Vec<usize> = vec![];
        let mut meanings = BTreeMap::new();
        // One late list takes the signatures left over; the first stays cheap to implement.
        let filler = count.saturating_sub(1 + self.rng.below(3)).max(1).min(count.max(1) - 1);
        for index in 0..count {
            let mut above = BTreeSet::from([index as u16 + 1]);
            let mut methods: Vec<[u16; 3]> = vec![];
            if index > 0 && index != filler && !self.rng.one_in(3) {
                let left = self.rng.below(index);
                let kin: Vec<usize> = (0..index).filter(|&other| family[other] == family[left]).collect();
                let right = if self.rng.one_in(5) { left } else { self.rng.pick(&kin).unwrap_or(left) };
                for parent in [left + 1, right + 1] {
                    above.extend(&self.above[parent]);
                    methods.extend(&self.methods[parent]);
                }
                methods.sort();
                methods.dedup();
                family.push(family[left]);
                self.script.interfaces.push([1, left as u16 + 1, right as u16 + 1]);
            } else {
                let own = self.rng.below(families);
                let rest = signatures - self.script.signatures.len();
                let number = if index == filler { rest } else { self.rng.below(rest.min(4) + 1) };
                for _ in 0..number {
                    let name = self.fresh_name(&methods);
                    let types = [self.any_type(), self.any_type()];
                    let [parameter, result] = *meanings.entry((own, name)).or_insert(types);
                    methods.push([name, parameter, result]);
                }
                family.push(own);
                self.script.interfaces.push([0, number as u16, 0]);
                self.script.signatures.extend(&methods);
            }
            self.add_type(above, methods, vec![]);
        }
    }

    fn declare_classes(&mut self, count: usize, fields: usize, methods: usize) {
        let cheapest = self.methods.get(1).map_or(0, Vec::len);
        let methods = methods.max(cheapest * count);
        for index in 0..count {
            let later = count - index - 1;
            let room = methods - self.script.methods.len() - cheapest * later;
            let tries = [(); 4].map(|_| 1 + self.rng.below(self.script.interfaces.len()));
            let interface = tries.into_iter().find(|&interface| self.methods[interface].len() <= room).unwrap_or(1);
            let mut own = self.methods[interface].clone();
            let spare = room - own.len();
            let extra = if later == 0 { spare } else { self.rng.below(spare.min(3) + 1) };
            for _ in 0..extra {
                let name = self.fresh_name(&own);
                own.push([name, self.any_type(), self.any_type()]);
            }
            for last in (1..own.len()).rev() {
                own.swap(last, self.rng.below(last + 1));
            }
            let rest = fields - self.script.fields.len();
            let number = self.rng.below(9).clamp(rest.saturating_sub(8 * later), rest.min(8));
            let mut own_fields: Vec<[u16; 2]> = vec![];
            for _ in 0..number {
                let name = self.fresh_name(&own_fields);
                own_fields.push([name, self.any_type()]);
            }
            self.script.classes.push([interface as u16, number as u16, own.len() as u16]);
            self.script.fields.extend(&own_fields);
            self.script.methods.extend(own.iter().map(|&[name, parameter, result]| [name, parameter, result, 0]));
            let mut above = self.above[interface].clone();
            above.insert(self.script.class_type(index));
            self.add_type(above, own, own_fields);
        }
        self.add_type(BTreeSet::from([self.int()]), vec![], vec![]);
    }

    /// Writes the bodies and the start, with at most `nodes` nodes if that is enough.
    fn write_bodies(&mut self, nodes: usize) {
        self.emit([0; 4]); // the start's place
        let runs: Vec<_> = self.script.method_runs().enumerate().collect();
        let count = self.script.methods.len();
        let spare = |written: usize, bodies: usize| nodes.saturating_sub(written + bodies + 2);
        for (class, run) in runs {
            for method in run {
                let [_, parameter, result, _] = self.script.methods[method];
                self.environment = BTreeMap::from([(0, self.script.class_type(class)), (1, parameter)]);
                self.bound = vec![0, 1];
                let spare = spare(self.script.nodes.len(), count - method);
                let budget = 1 + self.rng.below(2 * spare / (count - method + 1) + 1).min(spare);
                self.script.methods[method][3] = self.checked(result, budget);
            }
        }
        self.environment.clear();
        self.bound.clear();
        let (start, ty) = self.inferred(None, 2 + spare(self.script.nodes.len(), 0));
        self.script.nodes[0] = self.script.nodes[start as usize];
        self.script.nodes.truncate(start as usize); // it was the last
        self.faulty = self.faulty.map(|node| if node == start { 0 } else { node });
        // Casts to the start's type fill the file up.
        while nodes == LIMITS[5] && self.script.nodes.len() < nodes {
            let operand = self.emit(self.script.nodes[0]);
            self.script.nodes[0] = [7, ty, operand, 0];
        }
    }

    fn emit(&mut self, node: [u16; 4]) -> u16 {
        self.script.nodes.push(node);
        (self.script.nodes.len() - 1) as u16
    }

    fn fits(&self, ty: u16, goal: Option<u16>) -> bool {
        goal.is_none_or(|goal| self.above[ty as usize].contains(&goal))
    }

    fn type_below(&mut self, goal: Option<u16>) -> u16 {
        let below: Vec<u16> = (0..self.types as u16).filter(|&ty| self.fits(ty, goal)).collect();
        self.rng.pick(&below).unwrap_or(0)
    }

    fn some_variable(&mut self) -> Option<(u16, u16)> {
        let index = self.rng.below(self.environment.len());
        self.environment.iter().nth(index).map(|(&variable, &ty)| (variable, ty))
    }

    /// A variable and a member of its type whose last word, the type it gives, is below the goal.
    fn some_member<const W: usize>(
        &mut self,
        members: fn(&Self) -> &Vec<Vec<[u16; W]>>,
        goal: Option<u16>,
    ) -> Option<(u16, [u16; W])> {
        (0..3).find_map(|_| {
            let (variable, ty) = self.some_variable()?;
            let all = members(self)[ty as usize].iter().copied();
            let fitting: Vec<[u16; W]> = all.filter(|member| self.fits(member[W - 1], goal)).collect();
            Some((variable, self.rng.pick(&fitting)?))
        })
    }

    /// Divides a budget into parts of at least 2 nodes.
    fn split<const N: usize>(&mut self, budget: usize) -> [usize; N] {
        let mut shares = [2; N];
        let mut spare = budget - 2 * N;
        let favourite = self.rng.below(N);
        for other in (0..N).filter(|&part| part != favourite && !self.deep) {
            let share = self.rng.below(spare + 1);
            shares[other] += share;
            spare -= share;
        }
        shares[favourite] += spare;
        shares
    }

    /// An expression that fits where `wanted` is checked, with at most `budget` (1 or more) nodes.
    fn checked(&mut self, wanted: u16, budget: usize) -> u16 {
        if let Some(node) = self.occasion(14).and_then(|_| self.faulty_where(wanted, budget)) {
            self.at_fault(self.innermost(node));
            return node;
        }
        let null_in = if self.long_running { 40 } else { 8 };
        if self.rng.one_in(null_in) {
            return self.null_or_number(wanted);
        }
        if budget >= 2 {
            return self.not_null(Goal::Checked(wanted), budget).0;
        }
        let leaf = self.long_running.then(|| self.variable_or_new(Some(wanted))).flatten();
        leaf.map_or_else(|| self.null_or_number(wanted), |(node, _)| node)
    }

    /// An expression that gets a no to question 14 where `wanted` is checked.
    fn faulty_where(&mut self, wanted: u16, budget: usize) -> Option<u16> {
        let sum = if self.rng.one_in(3) { self.faulty(14) } else { None };
        sum.or_else(|| self.unfit(wanted, budget))
    }

    /// A null, or a constant where null does not fit.
    fn null_or_number(&mut self, wanted: u16) -> u16 {
        if wanted == self.int() {
            return self.constant();
        }
        self.emit([0; 4])
    }

    fn constant(&mut self) -> u16 {
        let [low, high] = number_words(self.rng.number());
        self.emit([NUMBER, low, high, 0])
    }

    /// The variables of type Int that may be used here.
    fn numbers(&self) -> Vec<u16> {
        let int = self.int();
        self.environment.iter().filter(|(_, ty)| **ty == int).map(|(variable, _)| *variable).collect()
    }

    /// An expression of an inferred type below `goal`, with at most `budget` (2 or more) nodes.
    fn inferred(&mut self, goal: Option<u16>, budget: usize) -> (u16, u16) {
        if self.occasion(12).is_some() {
            let null = self.emit([0; 4]);
            return (self.at_fault(null), goal.unwrap_or(0));
        }
        self.not_null(Goal::Inferred(goal), budget)
    }

    /// An expression for a goal that is no null itself.
    fn not_null(&mut self, goal: Goal, budget: usize) -> (u16, u16) {
        for number in [11, 13, 14, 15] {
            if let Some(node) = self.occasion(number).and_then(|_| self.faulty(number)) {
                return (self.at_fault(node), goal.upper().unwrap_or(0));
            }
        }
        for _ in 0..6 {
            let grow = budget >= 7 && !self.rng.one_in(40);
            let kind = match grow {
                true if self.long_running => [3, 4, 5, 5, 5, 7, 8, 9, 9][self.rng.below(9)],
                true => [3, 4, 5, 5, 7, 8, 9][self.rng.below(7)],
                false if self.long_running => [1, 1, 4, 5, 6, 6, 8, 9, 10, 11, 11][self.rng.below(11)],
                false => 1 + self.rng.below(11),
            };
            if let Some(made) = self.attempt(kind, goal, budget) {
                return made;
            }
        }
        if let Some(made) = self.long_running.then(|| self.variable_or_new(goal.upper())).flatten() {
            return made;
        }
        let ty = self.type_below(goal.upper());
        (self.cast_leaf(ty), ty)
    }

    /// A null or a constant, cast to this type.
    fn cast_leaf(&mut self, ty: u16) -> u16 {
        let operand = self.null_or_number(ty);
        self.emit([7, ty, operand, 0])
    }

    /// A variable, so that an object gets a second name, or else a new object; of type Int a sum or a constant.
    fn variable_or_new(&mut self, goal: Option<u16>) -> Option<(u16, u16)> {
        let kinds = match goal == Some(self.int()) || goal.is_none() && self.rng.one_in(4) {
            true => [[1, 11][self.rng.below(2)], 11, 10, 10, 10],
            false => [[1, 6][self.rng.below(2)], 1, 6, 6, 6],
        };
        kinds.into_iter().find_map(|kind| self.attempt(kind, Goal::Inferred(goal), 2))
    }

    fn attempt(&mut self, kind: usize, aim: Goal, budget: usize) -> Option<(u16, u16)> {
        let goal = aim.upper();
        let (node, ty) = match kind {
            1 => {
                let (variable, ty) = self.some_variable().filter(|&(_, ty)| self.fits(ty, goal))?;
                ([1, variable, 0, 0], ty)
            }
            2 => {
                let (target, [name, ty]) = self.some_member(|this| &this.fields, goal)?;
                ([2, target, name, 0], ty)
            }
            3 if self.fits(0, goal) => {
                let (target, [name, ty]) = self.some_member(|this| &this.fields, None)?;
                ([3, target, name, self.checked(ty, budget - 1)], 0)
            }
            4 => {
                let (target, [name, parameter, result]) = self.some_member(|this| &this.methods, goal)?;
                ([4, target, name, self.checked(parameter, budget - 1)], result)
            }
            5 if budget >= 5 => self.binding(aim, budget),
            6 => {
                let class = self.type_below(goal);
                let is_class = class as usize > self.script.interfaces.len() && class < self.int();
                is_class.then_some(([6, class, 0, 0], class))?
            }
            7 => {
                let ty = self.type_below(goal);
                ([7, ty, self.checked(ty, budget - 1), 0], ty)
            }
            8 if budget >= 7 => self.forking(aim, budget),
            9 if budget >= 3 => {
                let (target, _) = self.some_variable().filter(|&(_, ty)| ty != self.int())?;
                let (body, ty) = self.last_part(aim, budget - 1);
                ([9, target, body, 0], ty)
            }
            10 if self.fits(self.int(), goal) => return Some((self.constant(), self.int())),
            11 if self.fits(self.int(), goal) => {
                let numbers = self.numbers();
                ([SUM, self.rng.pick(&numbers)?, self.rng.pick(&numbers)?, 0], self.int())
            }
            _ => return None,
        };
        Some((self.emit(node), ty))
    }

    /// The last part of a let, a lock or a fork for a goal: a checked one is sometimes a null.
    fn last_part(&mut self, goal: Goal, budget: usize) -> (u16, u16) {
        let null_in = if self.long_running { 12 } else { 6 };
        match goal {
            Goal::Checked(wanted) if self.rng.one_in(null_in) => (self.null_or_number(wanted), 0),
            Goal::Checked(wanted) => (self.checked(wanted, budget), wanted),
            Goal::Inferred(goal) => self.inferred(goal, budget),
        }
    }

    /// A let, with the type of its last part.
    fn binding(&mut self, goal: Goal, budget: usize) -> ([u16; 4], u16) {
        let [first, last] = self.split(budget - 1);
        let brief = self.long_running && self.rng.one_in(2);
        let (bound, bound_type) = match brief.then(|| self.variable_or_new(None)).flatten() {
            Some(made) => made,
            None => self.inferred(None, first),
        };
        let variable = 2 + self.rng.below(self.variables) as u16;
        let outer = self.environment.insert(variable, bound_type);
        self.bound.push(variable);
        let (body, ty) = self.last_part(goal, last);
        self.bound.pop();
        match outer {
            Some(outer) => self.environment.insert(variable, outer),
            None => self.environment.remove(&variable),
        };
        ([5, variable, bound, body], ty)
    }

    /// A fork, with the type of its last part.
    fn forking(&mut self, goal: Goal, budget: usize) -> ([u16; 4], u16) {
        let [left, right, last] = self.split(budget - 1);
        // Each variable may be free in one async only; both may bind it anew.
        let whole = self.environment.clone();
        let (lefts, rights) = whole.iter().partition(|_| self.rng.one_in(2));
        self.environment = lefts;
        let (left, _) = self.inferred(None, left);
        self.environment = rights;
        let (right, _) = self.inferred(None, right);
        self.environment = whole;
        let (last, ty) = self.last_part(goal, last);
        ([8, left, right, last], ty)
    }

    /// Whether now is the time to give question `number` its no.
    fn occasion(&mut self, number: u16) -> Option<()> {
        let (_, wait) = self.fault.as_mut().filter(|fault| fault.0 == number)?;
        let due = *wait == 0;
        *wait = wait.saturating_sub(1);
        due.then_some(())
    }

    fn at_fault(&mut self, node: u16) -> u16 {
        self.fault = None;
        self.faulty = Some(node);
        node
    }

    /// The innermost last part of an expression.
    fn innermost(&self, node: u16) -> u16 {
        match self.script.nodes[node as usize] {
            [5 | 8, _, _, last] | [9, _, last, _] => self.innermost(last),
            _ => node,
        }
    }

    /// An expression that gets a no to question 11, 13, 14 or 15, and is otherwise in order.
    fn faulty(&mut self, number: u16) -> Option<u16> {
        let node = match number {
            11 => {
                let target = [0, 1, 2 + self.rng.below(8) as u16, self.rng.word()][self.rng.below(4)];
                if self.bound.contains(&target) {
                    return None;
                }
                let (name, part) = (self.rng.below(10) as u16, self.emit([0; 4]));
                // The other variable of a sum is of any type, or unbound too.
                let other = self.some_variable().map_or(target, |(variable, _)| variable);
                self.rng.pick(&[
                    [1, target, 0, 0],
                    [2, target, name, 0],
                    [3, target, name, part],
                    [4, target, name, part],
                    [9, target, part, 0],
                    [SUM, target, other, 0],
                    [SUM, other, target, 0],
                ])?
            }
            13 => {
                let numbers = self.numbers();
                let number = self.rng.pick(&numbers).filter(|_| self.rng.one_in(2)).map(|target| (target, self.int()));
                let (target, ty) = number.or_else(|| self.some_variable())?;
                let kind =
                    if ty == self.int() { [2, 3, 4, 9, 9][self.rng.below(5)] } else { [2, 3, 4][self.rng.below(3)] };
                if kind == 9 {
                    let part = self.emit([0; 4]);
                    return Some(self.emit([9, target, part, 0]));
                }
                let name = self.rng.word();
                let has_field = self.fields[ty as usize].iter().any(|field| field[0] == name);
                let has_method = self.methods[ty as usize].iter().any(|method| method[0] == name);
                if (kind == 4 && has_method) || (kind < 4 && has_field) {
                    return None;
                }
                [kind, target, name, if kind == 2 { 0 } else { self.emit([0; 4]) }]
            }
            14 => {
                let (one, other) = (self.some_variable()?, self.some_variable()?);
                if [one.1, other.1] == [self.int(); 2] {
                    return None;
                }
                [SUM, one.0, other.0, 0]
            }
            _ => {
                let (shared, _) = self.some_variable()?;
                let sides = [(); 2].map(|_| self.use_of(shared));
                let last = self.unfaulty_leaf();
                [8, sides[0], sides[1], last]
            }
        };
        Some(self.emit(node))
    }

    /// An inferred expression in which the variable is free, somewhere within.
    fn use_of(&mut self, variable: u16) -> u16 {
        if self.rng.one_in(2) {
            let numbers = self.numbers();
            let other = self.rng.pick(&numbers).filter(|_| numbers.contains(&variable) && !self.rng.one_in(3));
            let sums = other.map(|other| [[SUM, variable, other, 0], [SUM, other, variable, 0]][self.rng.below(2)]);
            return self.emit(sums.unwrap_or([1, variable, 0, 0]));
        }
        let usage = self.use_of(variable);
        let [one, two] = [(); 2].map(|_| self.unfaulty_leaf());
        let other = if variable == 2 { 3 } else { 2 };
        let wrapped = [
            [5, other, one, usage],
            [5, variable.max(2), usage, one], // bound anew, but free in the first part
            [8, usage, one, two],
            [8, one, usage, two],
            [8, one, two, usage],
            [9, variable, one, 0],
        ];
        let lockable = self.environment.get(&variable) != Some(&self.int());
        let wrapping = self.rng.below(wrapped.len() - usize::from(!lockable));
        self.emit(wrapped[wrapping])
    }

    fn unfaulty_leaf(&mut self) -> u16 {
        let ty = self.any_type();
        self.cast_leaf(ty)
    }

    /// A well-typed expression that does not fit where `wanted` is checked; at Int often what ends in null.
    fn unfit(&mut self, wanted: u16, budget: usize) -> Option<u16> {
        if wanted == self.int() && self.rng.one_in(2) {
            return Some(self.ending_in_null());
        }
        let fault = self.fault.take();
        let tries: [(u16, u16); 6] = std::array::from_fn(|_| self.inferred(None, budget.clamp(2, 20)));
        self.fault = fault;
        tries.into_iter().find(|&(_, ty)| !self.fits(ty, Some(wanted))).map(|(node, _)| node)
    }

    /// A null, or a let, a lock or a fork that ends in one.
    fn ending_in_null(&mut self) -> u16 {
        if self.rng.one_in(2) {
            return self.emit([0; 4]);
        }
        let last = self.ending_in_null();
        let [one, two] = [(); 2].map(|_| self.unfaulty_leaf());
        let target = self.some_variable().filter(|&(_, ty)| ty != self.int());
        let wrapped = match (self.rng.below(3), target) {
            (0, Some((target, _))) => [9, target, last, 0],
            (1, _) => [8, one, two, last],
            _ => [5, 2 + self.rng.below(self.variables) as u16, one, last],
        };
        self.emit(wrapped)
    }
}
