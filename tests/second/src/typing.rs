//! Questions 11 to 15: the bidirectional typing of Figure 11, as one walk over the bodies in
//! method order and then the start. "The first no counts, at that node."

use crate::expr::Expr;
use crate::script::{Script, Section};
use crate::types::{Type, Types, UNIT};
use crate::{Question, Refusal};

const THIS: usize = 0;
const PARAMETER: usize = 1;

/// The expressions of a script, with what typing needs to know of them, found once.
pub struct Typing {
    /// Variables are indexes into `names` here, so that an environment is a small array.
    expressions: Vec<Expr>,
    /// Every variable of the script, in rising order.
    names: Vec<u16>,
    /// By node: a fork whose asyncs share a free variable.
    sharing: Vec<bool>,
}

impl Typing {
    pub fn of(mut expressions: Vec<Expr>) -> Typing {
        let names = renumber_variables(&mut expressions);
        let sharing = sharing_forks(&expressions, names.len());
        Typing { expressions, names, sharing }
    }
}

/// Infers and checks in an environment.
pub struct Typer<'a> {
    script: &'a Script,
    types: &'a Types,
    typing: &'a Typing,
    /// By variable, the type of its nearest binding.
    environment: Vec<Option<Type>>,
}

impl<'a> Typer<'a> {
    /// A typer in the environment without a variable.
    pub fn new(script: &'a Script, types: &'a Types, typing: &'a Typing) -> Typer<'a> {
        Typer { script, types, typing, environment: vec![None; typing.names.len()] }
    }

    /// The start's type, if the bodies and the start are well typed.
    pub fn start_type(mut self) -> Result<Type, Refusal> {
        for (index, run) in self.script.method_runs().enumerate() {
            for &[_, parameter, result, body] in &self.script.methods[run] {
                self.environment[THIS] = Some(self.script.class_type(index));
                self.environment[PARAMETER] = Some(parameter);
                self.check(body, Some(result))?; // "Bodies are checked against the result type"
            }
        }
        self.environment.fill(None); // "the start is inferred with no variable"
        self.infer(0)
    }

    /// The same typer with these variables, the nearest first: "the nearest binding counts".
    pub fn with(mut self, nearest_first: impl Iterator<Item = (u16, Type)>) -> Typer<'a> {
        for (name, ty) in nearest_first {
            // A name that the script does not have is asked for by no node.
            if let Ok(variable) = self.typing.names.binary_search(&name) {
                self.environment[variable].get_or_insert(ty);
            }
        }
        self
    }

    /// The types of the script's variables: what a node's type depends on, beside the node.
    pub fn types(&self) -> &[Option<Type>] {
        &self.environment
    }

    /// The type of a variable, by the name that the file gives it.
    pub fn variable(&self, name: u16) -> Option<Type> {
        let variable = self.typing.names.binary_search(&name).ok()?;
        self.environment[variable]
    }

    /// Γ ⊢ e ⇒ t. "Fork sharing, target variable, field or method, parts in running order."
    pub fn infer(&mut self, node: u16) -> Result<Type, Refusal> {
        match self.typing.expressions[node as usize] {
            Expr::Null => Err(self.refusal(Question::InferredNull, node)),
            Expr::Variable { variable } => self.bound(variable, node),
            Expr::Read { target, field } => self.field(target, field, node),
            Expr::Write { target, field, value } => {
                let wanted = self.field(target, field, node)?;
                self.check(value, Some(wanted))?;
                Ok(UNIT)
            }
            Expr::Call { target, method, argument } => {
                let ty = self.bound(target, node)?;
                let signature = self.types.method(ty, method).ok_or_else(|| self.refusal(Question::Member, node))?;
                self.check(argument, Some(signature.parameter))?;
                Ok(signature.result)
            }
            Expr::Let { variable, bound, body } => self.binding(variable, bound, |typer| typer.infer(body)),
            Expr::New { class } => Ok(class),
            Expr::Cast { ty, operand } => {
                self.check(operand, Some(ty))?;
                Ok(ty)
            }
            Expr::Fork { left, right, last } => {
                self.asyncs(left, right, node)?;
                self.infer(last)
            }
            Expr::Lock { target, body } => {
                self.lockable(target, node)?;
                self.infer(body)
            }
            Expr::Number { .. } => Ok(self.types.int),
            Expr::Sum { one, other } => self.sum(one, other, node),
        }
    }

    /// "Adds variables a and b, both bound (11), then both of type Int (14)".
    fn sum(&self, one: u16, other: u16, node: u16) -> Result<Type, Refusal> {
        let int = self.types.int;
        match [self.bound(one, node)?, self.bound(other, node)?] == [int, int] {
            true => Ok(int),
            false => Err(self.refusal(Question::Fits, node)),
        }
    }

    /// "A lock target may have any type", but "Int is no target of field, call or lock (13)".
    fn lockable(&self, target: u16, node: u16) -> Result<(), Refusal> {
        match self.bound(target, node)? == self.types.int {
            true => Err(self.refusal(Question::Member, node)),
            false => Ok(()),
        }
    }

    /// The last part is asked with the variable at the first part's type; then the variable means
    /// again what it meant outside.
    fn binding<T>(
        &mut self,
        variable: u16,
        bound: u16,
        last: impl FnOnce(&mut Self) -> Result<T, Refusal>,
    ) -> Result<T, Refusal> {
        let ty = self.infer(bound)?;
        let outer = self.environment[variable as usize].replace(ty);
        let result = last(self);
        self.environment[variable as usize] = outer;
        result
    }

    /// The asyncs share no variable, and both have types.
    fn asyncs(&mut self, left: u16, right: u16, node: u16) -> Result<(), Refusal> {
        if self.typing.sharing[node as usize] {
            return Err(self.refusal(Question::Sharing, node));
        }
        self.infer(left)?;
        self.infer(right)?;
        Ok(())
    }

    /// Γ ⊢ e ⇐ t, and Γ ⊢ e ⇐ t for some t where none is wanted. "A null is checked against any
    /// type", but "null does not fit Int (14)"; "when a let, a lock or a fork is checked against a type, its last part is checked
    /// against that same type"; "every other node is checked by inferring and asking whether the
    /// result is below the wanted type"; if not, that node is at fault.
    pub fn check(&mut self, node: u16, wanted: Option<Type>) -> Result<(), Refusal> {
        match self.typing.expressions[node as usize] {
            Expr::Null if wanted.is_none_or(|wanted| self.types.null_fits(wanted)) => Ok(()),
            Expr::Null => Err(self.refusal(Question::Fits, node)),
            Expr::Let { variable, bound, body } => self.binding(variable, bound, |typer| typer.check(body, wanted)),
            Expr::Fork { left, right, last } => {
                self.asyncs(left, right, node)?;
                self.check(last, wanted)
            }
            Expr::Lock { target, body } => {
                self.lockable(target, node)?;
                self.check(body, wanted)
            }
            _ => {
                let ty = self.infer(node)?;
                match wanted.is_none_or(|wanted| self.types.below(ty, wanted)) {
                    true => Ok(()),
                    false => Err(self.refusal(Question::Fits, node)),
                }
            }
        }
    }

    fn bound(&self, variable: u16, node: u16) -> Result<Type, Refusal> {
        self.environment[variable as usize].ok_or_else(|| self.refusal(Question::Bound, node))
    }

    fn field(&self, target: u16, field: u16, node: u16) -> Result<Type, Refusal> {
        let ty = self.bound(target, node)?;
        self.types.field(ty, field).ok_or_else(|| self.refusal(Question::Member, node))
    }

    fn refusal(&self, question: Question, node: u16) -> Refusal {
        self.script.refusal(question, Section::Nodes, node as usize)
    }
}

/// Numbers the variables of the script from 0 without gaps (0 and 1 stay), so that environments
/// and sets of variables are small arrays, and answers their names.
fn renumber_variables(expressions: &mut [Expr]) -> Vec<u16> {
    let mut names = vec![THIS as u16, PARAMETER as u16];
    names.extend(expressions.iter_mut().flat_map(|expr| expr.variables_mut().map(|variable| *variable)));
    names.sort_unstable();
    names.dedup();
    for variable in expressions.iter_mut().flat_map(Expr::variables_mut) {
        *variable = names.partition_point(|name| name < variable) as u16;
    }
    names
}

/// Question 15 for every fork at once. Parts have larger numbers than their node, so going down
/// the numbers each set of free variables is made once, from those of its parts.
fn sharing_forks(expressions: &[Expr], variables: usize) -> Vec<bool> {
    let mut sharing = vec![false; expressions.len()];
    if !expressions.iter().any(|expr| matches!(expr, Expr::Fork { .. })) {
        return sharing;
    }
    let width = variables.div_ceil(64);
    let mut free = vec![0u64; expressions.len() * width];
    for (node, expr) in expressions.iter().enumerate().rev() {
        let (earlier, later) = free.split_at_mut((node + 1) * width);
        let own = &mut earlier[node * width..];
        let of = |part: u16| &later[(part as usize - node - 1) * width..][..width];
        match *expr {
            Expr::Null | Expr::New { .. } | Expr::Number { .. } => {}
            Expr::Sum { one, other } => [one, other].into_iter().for_each(|variable| insert(own, variable)),
            Expr::Variable { variable } | Expr::Read { target: variable, .. } => insert(own, variable),
            Expr::Write { target, value: part, .. }
            | Expr::Call { target, argument: part, .. }
            | Expr::Lock { target, body: part } => {
                unite(own, of(part));
                insert(own, target);
            }
            Expr::Cast { operand, .. } => unite(own, of(operand)),
            Expr::Let { variable, bound, body } => {
                unite(own, of(body));
                own[variable as usize / 64] &= !(1 << (variable % 64));
                unite(own, of(bound));
            }
            Expr::Fork { left, right, last } => {
                sharing[node] = of(left).iter().zip(of(right)).any(|(left, right)| left & right != 0);
                for part in [left, right, last] {
                    unite(own, of(part));
                }
            }
        }
    }
    sharing
}

fn insert(set: &mut [u64], variable: u16) {
    set[variable as usize / 64] |= 1 << (variable % 64);
}

fn unite(set: &mut [u64], other: &[u64]) {
    for (word, other) in set.iter_mut().zip(other) {
        *word |= other;
    }
}
