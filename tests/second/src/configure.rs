//! States made by hand: well formed as Figure 7 asks, most of them reached by no run. They have
//! objects that nobody made, odd binding names, failed threads beside shut objects, full stores.

use crate::expr::Expr;
use crate::generate::Rng;
use crate::program::Program;
use crate::state::{
    Binding, Closure, Environment, Focus, Frame, Object, State, Tree, Value, MOST_BINDINGS, MOST_FRAMES, MOST_OBJECTS,
    MOST_THREADS,
};
use crate::types::Type;

/// Variables with their types, the nearest last.
type Scope = Vec<(u16, Type)>;

/// A node, with what typing it where it stands in the script says.
struct Place {
    node: u16,
    scope: Scope,
    /// The inferred type; what ends in null has none and fits everywhere but at Int.
    gives: Option<Type>,
    /// For a node that leaves a frame: what the frame waits for.
    takes: Option<Type>,
}

/// A well-formed state of the script.
pub fn configuration(program: &Program, rng: &mut Rng) -> State {
    let threads = match rng.below(8) {
        0 => MOST_THREADS,
        1..=3 => 1,
        _ => 1 + rng.below(6),
    };
    let mut maker = Maker {
        program,
        places: survey(program),
        failing: [0, 0, 2, 4][rng.below(4)],
        frames: [2, 6, 60][rng.below(3)],
        frames_left: MOST_FRAMES,
        made: vec![],
        objects: vec![],
        bindings: vec![],
        rng,
    };
    maker.make_objects();
    let mut tree = maker.tree(Some(program.start_type), threads);
    maker.fill_frames(&mut tree);
    maker.fill_bindings();
    maker.shut_objects(&tree);
    State { objects: maker.objects, bindings: maker.bindings, tree }
}

/// Every node of the bodies and the start, in the scope in which Check types it.
fn survey(program: &Program) -> Vec<Place> {
    let mut places = vec![];
    for (class, run) in program.script.method_runs().enumerate() {
        let class = program.script.class_type(class);
        for &[_, parameter, _, body] in &program.script.methods[run] {
            survey_node(program, body, &vec![(0, class), (1, parameter)], &mut places);
        }
    }
    survey_node(program, 0, &vec![], &mut places);
    places
}

fn survey_node(program: &Program, node: u16, scope: &Scope, places: &mut Vec<Place>) {
    let infer = |node: u16| program.typer().with(scope.iter().rev().copied()).infer(node).ok();
    let variable = |name: u16| scope.iter().rev().find(|(other, _)| *other == name).map(|(_, ty)| *ty);
    let types = &program.types;
    let (parts, takes) = match program.expressions[node as usize] {
        Expr::Null
        | Expr::Variable { .. }
        | Expr::Read { .. }
        | Expr::New { .. }
        | Expr::Number { .. }
        | Expr::Sum { .. } => (vec![], None),
        Expr::Write { target, field, value } => (vec![value], variable(target).and_then(|ty| types.field(ty, field))),
        Expr::Call { target, method, argument } => {
            let signature = variable(target).and_then(|ty| types.method(ty, method));
            (vec![argument], signature.map(|signature| signature.parameter))
        }
        Expr::Let { variable, bound, body } => {
            let ty = infer(bound);
            let inner = scope.iter().copied().chain(ty.map(|ty| (variable, ty))).collect();
            survey_node(program, body, &inner, places);
            (vec![bound], ty)
        }
        Expr::Cast { ty, operand } => (vec![operand], Some(ty)),
        Expr::Fork { left, right, last } => (vec![left, right, last], None),
        Expr::Lock { body, .. } => (vec![body], None),
    };
    for part in parts {
        survey_node(program, part, scope, places);
    }
    places.push(Place { node, scope: scope.clone(), gives: infer(node), takes });
}

struct Maker<'a> {
    program: &'a Program,
    places: Vec<Place>,
    /// One thread in so many fails; 0 for none.
    failing: usize,
    /// How many frames a position may have.
    frames: usize,
    frames_left: usize,
    /// By place, an environment that was made for it.
    made: Vec<(usize, Environment)>,
    objects: Vec<Object>,
    bindings: Vec<Binding>,
    rng: &'a mut Rng,
}

impl Maker<'_> {
    fn below(&self, lower: Type, want: Option<Type>) -> bool {
        want.is_none_or(|upper| self.program.types.below(lower, upper))
    }

    /// Whether a place gives what is wanted: its type is below, or it ends in null and null fits.
    fn place_fits(&self, place: &Place, want: Option<Type>) -> bool {
        match place.gives {
            Some(ty) => self.below(ty, want),
            None => want.is_none_or(|ty| self.program.types.null_fits(ty)),
        }
    }

    /// Null, an object whose class is below the type, or a number; at Int always a number.
    fn value(&mut self, want: Option<Type>) -> Value {
        let int = self.program.types.int;
        if want == Some(int) || want.is_none() && self.rng.one_in(3) {
            return Value::Number(self.rng.number());
        }
        let fitting: Vec<u16> =
            (0..).zip(&self.objects).filter(|(_, object)| self.below(object.class, want)).map(|(at, _)| at).collect();
        if self.rng.one_in(3) {
            return Value::Null;
        }
        self.rng.pick(&fitting).map_or(Value::Null, Value::Object)
    }

    /// Some objects, or as many as there can be, with fields that fit.
    fn make_objects(&mut self) {
        let (first, classes) = (self.program.script.class_type(0), self.program.script.classes.len());
        let count = match self.rng.below(8) {
            _ if classes == 0 => 0,
            0 => MOST_OBJECTS - self.rng.below(2),
            _ => self.rng.below(8),
        };
        for _ in 0..count {
            let class = first + self.rng.below(classes) as Type;
            let fields = vec![Value::Null; self.program.types.fields(class).len()];
            self.objects.push(Object { class, shut: false, fields });
        }
        for index in 0..count {
            for field in 0..self.objects[index].fields.len() {
                let ty = self.program.types.fields(self.objects[index].class)[field][1];
                self.objects[index].fields[field] = self.value(Some(ty));
            }
        }
    }

    fn bind(&mut self, name: u16, ty: Type, beneath: Environment) -> Environment {
        let value = self.value(Some(ty));
        self.bindings.push(Binding { name, ty, value, beneath });
        Some(self.bindings.len() as u16 - 1)
    }

    /// A binding of any type, as no run would make it.
    fn bind_odd(&mut self, name: u16, beneath: Environment) -> Environment {
        let ty = self.rng.below(self.types() as usize) as Type;
        self.bind(name, ty, beneath)
    }

    /// How many types the script has, Unit and Int included.
    fn types(&self) -> Type {
        self.program.types.int + 1
    }

    /// An environment that was made for a place before, or else a new one, if there is room.
    fn environment(&mut self, place: usize) -> Option<Environment> {
        let made = self.made.iter().find(|(other, _)| *other == place).map(|(_, environment)| *environment);
        if let Some(environment) = made.filter(|_| !self.rng.one_in(3)) {
            return Some(environment);
        }
        let environment = self.bind_scope(self.places[place].scope.clone())?;
        self.made.push((place, environment));
        Some(environment)
    }

    /// The same with types that may be below those of the scope. What is typed in the scope is
    /// then typed in the environment too, at its type there or below.
    fn narrower_environment(&mut self, place: usize) -> Option<Environment> {
        let mut scope = self.places[place].scope.clone();
        for (_, ty) in &mut scope {
            let below: Vec<Type> = (0..self.types()).filter(|&lower| self.below(lower, Some(*ty))).collect();
            *ty = self.rng.pick(&below).unwrap_or(*ty);
        }
        self.bind_scope(scope)
    }

    /// Bindings for a scope, if there is room. Odd ones lie between and beneath them, where each
    /// is further than the scope's own binding of its name.
    fn bind_scope(&mut self, scope: Scope) -> Option<Environment> {
        if self.bindings.len() + 2 * scope.len() > MOST_BINDINGS {
            return None;
        }
        let mut environment = None;
        for (index, &(name, ty)) in scope.iter().enumerate() {
            if self.rng.one_in(4) {
                let ahead = &scope[index..];
                let odd = self.rng.word();
                let shadowed = self.rng.pick(ahead).map_or(name, |(name, _)| name);
                let known = scope.iter().any(|(other, _)| *other == odd);
                environment = self.bind_odd(if known { shadowed } else { odd }, environment);
            }
            environment = self.bind(name, ty, environment);
        }
        Some(environment)
    }

    /// A node that fits, with bindings for it.
    fn closure(&mut self, want: Option<Type>) -> Option<Closure> {
        let fits = |place: usize| self.place_fits(&self.places[place], want);
        let fitting: Vec<usize> = (0..self.places.len()).filter(|&place| fits(place)).collect();
        let place = self.rng.pick(&fitting)?;
        let narrower = self.rng.one_in(3);
        let environment = if narrower { self.narrower_environment(place) } else { self.environment(place) };
        Some(Closure { node: self.places[place].node, environment: environment? })
    }

    /// A frame that gives what is wanted, and what it takes.
    fn frame(&mut self, want: Option<Type>) -> Option<(Frame, Option<Type>)> {
        let gives = |place: &Place| place.takes.is_some() && self.place_fits(place, want);
        let fitting: Vec<usize> = (0..self.places.len()).filter(|&place| gives(&self.places[place])).collect();
        let place = self.rng.pick(&fitting)?;
        let (node, takes) = (self.places[place].node, self.places[place].takes);
        if let Expr::Cast { .. } = self.program.expressions[node as usize] {
            return Some((Frame::Cast { node }, takes));
        }
        Some((Frame::Waiting(Closure { node, environment: self.environment(place)? }), takes))
    }

    /// Locks an object that is open so far.
    fn lock(&mut self) -> Option<Frame> {
        let object = self.rng.below(self.objects.len());
        let open = self.objects.get_mut(object).filter(|object| !object.shut)?;
        open.shut = true;
        Some(Frame::Lock { object: object as u16 })
    }

    /// Frames up to what is wanted of the outermost, and what is wanted of what they wait for.
    fn frames(&mut self, mut want: Option<Type>, count: usize) -> (Vec<Frame>, Option<Type>) {
        let mut frames = vec![];
        for _ in 0..count.min(self.frames_left) {
            if self.rng.one_in(4) {
                frames.extend(self.lock());
            } else if let Some((frame, takes)) = self.frame(want) {
                frames.push(frame);
                want = takes;
            }
        }
        self.frames_left -= frames.len();
        (frames, want)
    }

    fn tree(&mut self, want: Option<Type>, threads: usize) -> Tree {
        if threads == 1 && self.failing > 0 && self.rng.one_in(self.failing) {
            return Tree::new(Focus::Failed);
        }
        let count = self.rng.below(self.frames);
        let (frames, want) = self.frames(want, count);
        let closure = self.closure(want);
        let focus = match closure {
            Some(last) if threads > 1 => {
                let left = if self.rng.one_in(2) { threads / 2 } else { 1 + self.rng.below(threads - 1) };
                let sides = [left, threads - left].map(|threads| self.tree(None, threads));
                Focus::Join { last, sides: Box::new(sides) }
            }
            Some(at) if !self.rng.one_in(3) => Focus::Node(at),
            _ => Focus::Value(self.value(want)),
        };
        Tree { frames, focus }
    }

    /// Sometimes uses up the frames, or all but one: around the outermost ones of the root come
    /// casts, each of which takes what it gives.
    fn fill_frames(&mut self, tree: &mut Tree) {
        let start = self.program.start_type;
        let is_cast =
            |node: u16| matches!(self.program.expressions[node as usize], Expr::Cast { ty, .. } if ty == start);
        let cast = (0..self.program.expressions.len() as u16).find(|&node| is_cast(node));
        let Some(node) = cast.filter(|_| self.rng.one_in(6) && !tree.is_failed()) else {
            return;
        };
        let count = self.frames_left - self.rng.below(2).min(self.frames_left);
        tree.frames.splice(0..0, vec![Frame::Cast { node }; count]);
        self.frames_left -= count;
    }

    /// Adds bindings that nobody uses, sometimes so many that no more than two places are left.
    fn fill_bindings(&mut self) {
        let room = MOST_BINDINGS - self.bindings.len();
        let count = match self.rng.below(6) {
            0 => room - self.rng.below(3).min(room),
            1..=3 => self.rng.below(4).min(room),
            _ => 0,
        };
        for _ in 0..count {
            let beneath = self.rng.below(self.bindings.len() + 1).checked_sub(1).map(|nearest| nearest as u16);
            let name = self.rng.word();
            self.bind_odd(name, beneath);
        }
    }

    /// "With no failed thread no other objects are shut"; with one, any may be.
    fn shut_objects(&mut self, tree: &Tree) {
        if !tree.positions().iter().any(|position| position.tree.is_failed()) {
            return;
        }
        for object in &mut self.objects {
            object.shut |= self.rng.one_in(3);
        }
    }
}
