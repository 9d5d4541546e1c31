//! Writes small scripts with forks, as texts that are well typed by the way they are made: threads that share objects through aliases, locks in all nestings, objects handed on through fields,
//! nulls and sums out of range, calls through an interface.

use super::dice::Dice;

#[derive(Clone, Copy, Debug, PartialEq, Eq)]
enum Type {
    Int,
    Unit,
    A,
    B,
    I,
}

impl Type {
    fn name(self) -> &'static str {
        ["Int", "Unit", "A", "B", "I"][self as usize]
    }
}

#[derive(Clone, Debug)]
struct Variable {
    name: String,
    of: Type,
}

/// What stands around a script's main part.
#[derive(Clone, Copy, Debug, PartialEq, Eq)]
pub enum Shape {
    /// Nothing.
    Open,
    /// A thread beside it that waits for ever: tests::tight gives it frames and threads to keep.
    Beside,
    /// A cast to the start's type: tests::tight gives the root many frames of it.
    Cast,
}

pub struct Writer {
    dice: Dice,
    names: usize,
    /// So many forks may still be written.
    forks: usize,
    /// How deep calls may go: 0 for none, 1 for m, 2 for m and g.
    calls: usize,
    /// Methods may call themselves.
    endless: bool,
    /// How often an async has no step before its end, one, two or three.
    steps: [usize; 4],
}

/// A script of this seed. Those that are endless have methods that call themselves.
pub fn text(seed: u64, shape: Shape, endless: bool) -> String {
    let mut writer = Writer { dice: Dice::of(seed), names: 0, forks: 0, calls: 0, endless, steps: SHORT };
    let classes = writer.classes();
    writer.calls = 2;
    let more = writer.dice.weighed(&[47, 44, 9]);
    writer.forks = 1 + more;
    writer.steps = match shape {
        Shape::Open => [[10, 45, 40, 5], [50, 48, 2, 0], SHORT][more],
        _ => SHORT,
    };
    format!("{classes}{}", writer.start(shape))
}

/// The steps of asyncs where there are many of them, since each thread multiplies the states.
const SHORT: [usize; 4] = [75, 25, 0, 0];

impl Writer {
    fn name(&mut self) -> String {
        self.names += 1;
        format!("v{}", self.names)
    }

    fn classes(&mut self) -> String {
        let mut text = String::from("interface I { m(p : Int) : Int g(p : A) : A }\n");
        text += "class A implements I { n : Int k : Int r : A q : I\n";
        text += &self.methods(Type::A);
        text += "}\nclass B implements I { n : Int r : A\n";
        text += &self.methods(Type::B);
        text + "}\n"
    }

    fn methods(&mut self, class: Type) -> String {
        let this = Variable { name: "this".into(), of: class };
        let parameter = |of| Variable { name: "p".into(), of };
        self.calls = usize::from(self.endless);
        let m = self.body(&[this.clone(), parameter(Type::Int)], Type::Int);
        self.calls = 1 + usize::from(self.endless);
        let g = self.body(&[this, parameter(Type::A)], Type::A);
        format!("  def m(p : Int) : Int {{ {m} }}\n  def g(p : A) : A {{ {g} }}\n")
    }

    fn body(&mut self, scope: &[Variable], result: Type) -> String {
        self.forks = usize::from(self.dice.percent(if self.endless { 40 } else { 10 }));
        let size = self.dice.weighed(&[35, 55, 10]);
        self.block(scope, result, size, true)
    }

    fn start(&mut self, shape: Shape) -> String {
        let mut text = String::new();
        let mut scope = Vec::new();
        for (name, of) in [("a", Type::A), ("b", Type::A), ("c", Type::B)] {
            if of == Type::A || self.dice.percent(40) {
                text += &format!("let {name} = new {} in\n", of.name());
                scope.push(Variable { name: name.into(), of });
            }
        }
        for link in ["a.r = b", "b.r = a", "b.r = b", "a.q = b"] {
            if self.dice.percent(25) {
                text += &format!("let {} = {link} in\n", self.name());
            }
        }
        let result = *self.dice.pick(&[Type::A, Type::A, Type::A, Type::Int]);
        if self.dice.percent(12) {
            text += *self.dice.pick(&["lock(a) in ", "lock(b) in ", "lock(a) in lock(b) in "]);
        }
        match shape {
            Shape::Open => text + &self.fork(&scope, result, false),
            Shape::Cast => format!("(A) {text}{}", self.fork(&scope, Type::A, false)),
            Shape::Beside => {
                let main = self.fork(&scope, result, false);
                format!("let w = new A in let w2 = w in {text}lock(w) in\nfinish {{ async {{ {main} }}\nasync {{ lock(w2) in (A) w2 }} }};\na")
            }
        }
    }

    /// An expression of a type with so many steps before its end. Where it is not checked against the type, it must not end in null.
    fn block(&mut self, scope: &[Variable], want: Type, size: usize, checked: bool) -> String {
        if size == 0 {
            return self.last(scope, want, checked);
        }
        if self.forks > 0 && self.dice.percent(35) {
            return self.fork(scope, want, checked);
        }
        if self.dice.percent(25) {
            let Some(object) = self.object(scope) else { return self.last(scope, want, checked) };
            return format!("lock({object}) in {}", self.block(scope, want, size - 1, checked));
        }
        let (first, of) = self.first(scope, size);
        let variable = Variable { name: self.name(), of };
        let mut inner = scope.to_vec();
        inner.push(variable.clone());
        format!("let {} = {first} in {}", variable.name, self.block(&inner, want, size - 1, checked))
    }

    /// A fork: aliases, so that the asyncs share objects but no variable, the two asyncs, and a last part.
    fn fork(&mut self, scope: &[Variable], want: Type, checked: bool) -> String {
        self.forks = self.forks.saturating_sub(1);
        let (mut text, mut left, mut right, mut all) = (String::new(), Vec::new(), Vec::new(), scope.to_vec());
        for variable in scope {
            let shared = variable.of != Type::Int && all.len() < scope.len() + 3 && self.dice.percent(70);
            if shared {
                let alias = Variable { name: self.name(), of: variable.of };
                text += &format!("let {} = {} in ", alias.name, variable.name);
                left.push(variable.clone());
                right.push(alias.clone());
                all.push(alias);
            } else if self.dice.percent(50) {
                left.push(variable.clone());
            } else {
                right.push(variable.clone());
            }
        }
        if self.dice.percent(50) {
            std::mem::swap(&mut left, &mut right);
        }
        let (a, b) = (self.part(&left), self.part(&right));
        let both = ["a", "b"].iter().all(|name| scope.iter().any(|variable| variable.name == *name));
        let last = match want {
            Type::A if both && self.dice.percent(70) => "let all = a.q = b in a".into(),
            _ => {
                let after = self.dice.weighed(&[75, 20, 5]);
                self.block(&all, want, after, checked)
            }
        };
        format!("{text}finish {{ async {{ {a} }}\nasync {{ {b} }} }};\n{last}")
    }

    /// What an async does; its value is anything.
    fn part(&mut self, scope: &[Variable]) -> String {
        let size = self.dice.weighed(&self.steps.clone());
        let want = *self.dice.pick(&[Type::Int, Type::Unit, Type::Unit, Type::A]);
        let names = (self.of(scope, |of| of == Type::A), self.of(scope, |of| of == Type::A));
        let (Some(x), Some(y)) = names else { return self.block(scope, want, size, false) };
        if self.forks > 0 && self.dice.percent(60) {
            return self.fork(scope, want, false);
        }
        self.deed(scope, &x, &y).unwrap_or_else(|| self.block(scope, want, size, false))
    }

    /// What threads do that share objects: locks in some order, a number or an object that is carried on, a sum, an object that is handed over or taken up; or none of these.
    fn deed(&mut self, scope: &[Variable], x: &str, y: &str) -> Option<String> {
        let (of, to) = (*self.dice.pick(&["n", "n", "k"]), *self.dice.pick(&["n", "n", "k"]));
        let v = self.name();
        let mut inner = scope.to_vec();
        inner.push(Variable { name: v.clone(), of: Type::A });
        Some(match self.dice.weighed(&[22, 12, 8, 10, 12, 8, 6, 22]) {
            0 => format!("lock({x}) in lock({y}) in {}", self.last(scope, Type::Unit, false)),
            1 => format!("let {v} = {x}.{of} in {y}.{to} = {v}"),
            2 => format!("let {v} = {x}.{of} in {x}.{of} = {v} + {v}"),
            3 => format!("{x}.r = {y}"),
            4 => format!("let {v} = {x}.r in {}", self.used(&v, &inner)),
            5 => format!("let {v} = {x}.r in {y}.r = {v}"),
            6 => format!("let {v} = new A in {x}.r = {v}"),
            _ => return None,
        })
    }

    /// What is done to an object that was taken up from a field, and may be null.
    fn used(&mut self, object: &str, scope: &[Variable]) -> String {
        match self.dice.below(4) {
            0 => format!("lock({object}) in {}", self.last(scope, Type::Unit, false)),
            1 => format!("lock({object}) in {object}.n = {}", self.number()),
            2 => format!("{object}.r = {}", self.reference(scope)),
            _ => format!("{object}.n = {}", self.number()),
        }
    }

    fn of(&mut self, scope: &[Variable], fits: impl Fn(Type) -> bool) -> Option<String> {
        let names: Vec<&Variable> = scope.iter().filter(|variable| fits(variable.of)).collect();
        // What was bound last is mostly what a step is about.
        match names.len() {
            0 => None,
            count if self.dice.percent(40) => Some(names[count - 1].name.clone()),
            _ => Some(self.dice.pick(&names).name.clone()),
        }
    }

    fn object(&mut self, scope: &[Variable]) -> Option<String> {
        self.of(scope, |of| matches!(of, Type::A | Type::B | Type::I))
    }

    /// A number: mostly one of its own, so that who wrote it can be told; now and then one that makes a sum fail.
    fn number(&mut self) -> String {
        if self.dice.percent(12) {
            return self.dice.pick(&["0", "-1", "2147483647", "-2147483648"]).to_string();
        }
        self.names += 1;
        self.names.to_string()
    }

    /// What a let binds, and its type.
    fn first(&mut self, scope: &[Variable], size: usize) -> (String, Type) {
        let Some(a) = self.of(scope, |of| of == Type::A) else { return (format!("new {}", Type::A.name()), Type::A) };
        match self.dice.weighed(&[14, 12, 16, 14, 8, 8, 12, 4, 4, 2, 6]) {
            0 => (format!("{a}.{}", self.dice.pick(&["n", "n", "k"])), Type::Int),
            1 => (self.write_number(scope, &a), Type::Unit),
            2 => (format!("{a}.r"), Type::A),
            3 => (format!("{a}.r = {}", self.reference(scope)), Type::Unit),
            4 => ("new A".into(), Type::A),
            5 => {
                let of = *self.dice.pick(&[Type::Int, Type::Unit, Type::A]);
                let Some(object) = self.object(scope) else { return ("new B".into(), Type::B) };
                (format!("lock({object}) in {}", self.block(scope, of, size - 1, false)), of)
            }
            6 => self.call(scope, &a),
            7 => (format!("{a}.q"), Type::I),
            8 => (format!("{a}.q = {}", self.shape(scope)), Type::Unit),
            9 => ("(A) null".into(), Type::A),
            _ => (self.sum(scope), Type::Int),
        }
    }

    fn write_number(&mut self, scope: &[Variable], target: &str) -> String {
        let field = *self.dice.pick(&["n", "n", "k"]);
        format!("{target}.{field} = {}", self.sum(scope))
    }

    /// A number without a step: a constant, a variable or a sum.
    fn sum(&mut self, scope: &[Variable]) -> String {
        match (self.of(scope, |of| of == Type::Int), self.of(scope, |of| of == Type::Int), self.dice.below(3)) {
            (Some(x), Some(y), 0) => format!("{x} + {y}"),
            (Some(x), _, 1) => x,
            _ => self.number(),
        }
    }

    /// A reference to be written into a field, or an argument: checked, so null will do.
    fn reference(&mut self, scope: &[Variable]) -> String {
        match self.dice.weighed(&[70, 15, 15]) {
            0 => self.of(scope, |of| of == Type::A).unwrap_or("null".into()),
            1 => "new A".into(),
            _ => "null".into(),
        }
    }

    fn shape(&mut self, scope: &[Variable]) -> String {
        match self.dice.weighed(&[50, 20, 20, 10]) {
            0 => self.object(scope).unwrap_or("null".into()),
            1 => "new A".into(),
            2 => "new B".into(),
            _ => "null".into(),
        }
    }

    fn call(&mut self, scope: &[Variable], a: &str) -> (String, Type) {
        let Some(object) = self.object(scope) else { return (format!("{a}.n"), Type::Int) };
        match (self.calls, self.dice.below(2)) {
            (0, _) => (format!("{a}.n"), Type::Int),
            (1, _) | (_, 0) => (format!("{object}.m({})", self.sum(scope)), Type::Int),
            _ => (format!("{object}.g({})", self.reference(scope)), Type::A),
        }
    }

    /// An end of an expression.
    fn last(&mut self, scope: &[Variable], want: Type, checked: bool) -> String {
        let a = self.of(scope, |of| of == Type::A);
        match (want, a) {
            (Type::Int, Some(a)) if self.dice.percent(50) => format!("{a}.n"),
            (Type::Int, _) => self.sum(scope),
            (Type::Unit, Some(a)) if self.dice.percent(50) => self.write_number(scope, &a),
            (Type::Unit, Some(a)) => format!("{a}.r = {}", self.reference(scope)),
            (Type::A, Some(a)) => self.end_object(scope, a),
            (Type::A, None) if checked => "null".into(),
            (Type::A | Type::B | Type::I, _) => "new A".into(),
            (Type::Unit, None) => "(Unit) null".into(),
        }
    }

    fn end_object(&mut self, scope: &[Variable], a: String) -> String {
        match self.dice.weighed(&[70, 15, 15]) {
            0 if self.calls == 0 || self.dice.percent(80) => a,
            0 => match self.object(scope) {
                Some(object) if self.calls == 2 => format!("{object}.g({a})"),
                _ => a,
            },
            1 => format!("{a}.r"),
            _ => "new A".into(),
        }
    }
}
