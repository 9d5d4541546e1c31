//! Moves (Figures 8, 9 and A.2), and Run's choices among them.

use crate::expr::Expr;
use crate::program::Program;
use crate::state::{
    chain, held, Binding, Closure, Environment, Focus, Frame, Object, Position, State, Tree, Value, MOST_BINDINGS,
    MOST_FRAMES, MOST_OBJECTS, MOST_THREADS,
};
use crate::types::{Type, UNIT};

/// The names of the two variables that a body begins with.
const THIS: u16 = 0;
const PARAMETER: u16 = 1;

/// Why a Run ended, with document 01's numbers.
#[derive(Clone, Copy, Debug, PartialEq, Eq)]
pub enum Stop {
    ChoicesSpent,
    Finished,
    Failed,
    Stuck,
    ObjectsFull,
    BindingsFull,
    FramesFull,
    ThreadsFull,
}

/// What a Run came to.
#[derive(Clone, Copy, Debug, PartialEq, Eq)]
pub struct Outcome {
    pub stop: Stop,
    pub read: u16,
    pub moves: u16,
}

/// Why a choice moves nothing.
#[derive(Clone, Copy, Debug, PartialEq, Eq)]
pub enum Unmoved {
    /// "A position that is absent or cannot move is passed over."
    PassedOver,
    Full(Stop),
}

pub struct Machine<'p> {
    pub program: &'p Program,
    pub state: State,
}

impl Machine<'_> {
    /// "Run first looks, then looks after every choice."
    pub fn run(&mut self, choices: &[u8]) -> Outcome {
        let (mut read, mut moves) = (0, 0);
        for &choice in choices {
            if let Some(stop) = self.rest() {
                return Outcome { stop, read, moves };
            }
            read += 1;
            match self.step(choice) {
                Ok(()) => moves += 1,
                Err(Unmoved::PassedOver) => {}
                Err(Unmoved::Full(stop)) => return Outcome { stop, read, moves },
            }
        }
        let stop = self.rest().unwrap_or(Stop::ChoicesSpent); // "1 to 3 win over 0"
        Outcome { stop, read, moves }
    }

    /// The stop that the state itself gives, whatever is chosen.
    fn rest(&self) -> Option<Stop> {
        if self.state.tree.is_finished() {
            return Some(Stop::Finished);
        }
        if self.state.tree.is_failed() {
            return Some(Stop::Failed);
        }
        let positions = self.state.tree.positions();
        let stuck = !(0..positions.len()).any(|number| self.can_move(&positions, number));
        stuck.then_some(Stop::Stuck)
    }

    /// By position, whether it can move.
    pub fn offer(&self) -> Vec<bool> {
        let positions = self.state.tree.positions();
        (0..positions.len()).map(|number| self.can_move(&positions, number)).collect()
    }

    /// "Unless waiting, finished or failed, it can move. A join can when both sides are finished
    /// threads or one is a failed thread."
    fn can_move(&self, positions: &[Position], number: usize) -> bool {
        let tree = positions[number].tree;
        match &tree.focus {
            Focus::Node(at) => {
                !self.shut_for(*at).is_some_and(|object| held(positions, number).all(|other| other != object))
            }
            Focus::Value(_) => !tree.is_finished(),
            Focus::Failed => false,
            Focus::Join { sides, .. } => sides.iter().all(Tree::is_finished) || sides.iter().any(Tree::is_failed),
        }
    }

    /// The shut object that the move due at a node locks, if it does: "A thread waits when its move due is a lock on a shut
    /// object that it does not hold."
    fn shut_for(&self, at: Closure) -> Option<u16> {
        let Expr::Lock { target, .. } = self.program.expressions[at.node as usize] else {
            return None;
        };
        let object = value_of(&self.state.bindings, at.environment, target).target()?;
        self.state.objects[object as usize].shut.then_some(object)
    }

    /// The move of the chosen position, made if it is due and has room.
    pub fn step(&mut self, choice: u8) -> Result<(), Unmoved> {
        let choice = choice as usize;
        let positions = self.state.tree.positions();
        let threads = positions.iter().filter(|position| !matches!(position.tree.focus, Focus::Join { .. })).count();
        let frames: usize = positions.iter().map(|position| position.tree.frames.len()).sum();
        let position = positions.get(choice).ok_or(Unmoved::PassedOver)?;
        let held = match &position.tree.focus {
            Focus::Node(at) if self.shut_for(*at).is_some() => held(&positions, choice).collect(),
            _ => vec![],
        };
        let State { objects, bindings, tree } = &mut self.state;
        let tree = tree.position_mut(choice).ok_or(Unmoved::PassedOver)?;
        let (more_frames, more_threads) = (MOST_FRAMES - frames, MOST_THREADS - threads);
        let frames = &mut tree.frames;
        let mut thread = Thread { program: self.program, objects, bindings, frames, held, more_frames, more_threads };
        let focus = match &tree.focus {
            Focus::Node(at) => thread.enter(*at)?,
            Focus::Value(value) => thread.resume(*value)?,
            Focus::Failed => return Err(Unmoved::PassedOver),
            Focus::Join { last, sides } => fold(*last, sides)?,
        };
        if matches!(focus, Focus::Failed) {
            tree.frames.clear(); // "a failed thread keeps no frame and holds nothing"
        }
        tree.focus = focus; // drops all that was beneath a join
        Ok(())
    }
}

/// A join "goes on as the left thread, at the last part", or "with a failed side it becomes failed".
fn fold(last: Closure, sides: &[Tree; 2]) -> Result<Focus, Unmoved> {
    if sides.iter().any(Tree::is_failed) {
        return Ok(Focus::Failed);
    }
    if sides.iter().all(Tree::is_finished) {
        return Ok(Focus::Node(last));
    }
    Err(Unmoved::PassedOver)
}

/// The value of the nearest binding of a name.
fn value_of(bindings: &[Binding], environment: Environment, name: u16) -> Value {
    let nearest = chain(bindings, environment).find(|binding| binding.name == name);
    nearest.expect("well-formed expressions have their variables bound").value
}

/// "A sum outside the range fails the thread as null does."
fn add(one: Value, other: Value) -> Focus {
    let (Value::Number(one), Value::Number(other)) = (one, other) else {
        unreachable!("well-typed sums are of numbers")
    };
    one.checked_add(other).map_or(Focus::Failed, |sum| Focus::Value(Value::Number(sum)))
}

/// A thread about to move: the stores, its own frames, and what it holds.
struct Thread<'a> {
    program: &'a Program,
    objects: &'a mut Vec<Object>,
    bindings: &'a mut Vec<Binding>,
    frames: &'a mut Vec<Frame>,
    /// Where its move due locks a shut object, the objects that it holds.
    held: Vec<u16>,
    more_frames: usize,
    more_threads: usize,
}

impl Thread<'_> {
    /// The move of a thread at a node.
    fn enter(&mut self, at: Closure) -> Result<Focus, Unmoved> {
        let part = |node: u16| Closure { node, environment: at.environment };
        match self.program.expressions[at.node as usize] {
            Expr::Null => Ok(Focus::Value(Value::Null)),
            Expr::Number { number } => Ok(Focus::Value(Value::Number(number))),
            Expr::Sum { one, other } => Ok(add(self.value(at, one), self.value(at, other))),
            Expr::Variable { variable } => Ok(Focus::Value(self.value(at, variable))),
            Expr::Read { target, field } => Ok(self.read(at, target, field)),
            Expr::Write { value: first, .. } | Expr::Call { argument: first, .. } | Expr::Let { bound: first, .. } => {
                self.descend(Frame::Waiting(at), part(first))
            }
            Expr::Cast { operand, .. } => self.descend(Frame::Cast { node: at.node }, part(operand)),
            Expr::New { class } => self.create(class),
            Expr::Fork { left, right, last } => self.fork([part(left), part(right)], part(last)),
            Expr::Lock { target, body } => {
                let target = self.value(at, target);
                self.lock(target, part(body))
            }
        }
    }

    fn value(&self, at: Closure, name: u16) -> Value {
        value_of(self.bindings, at.environment, name)
    }

    /// "A read gives the field"; "null fails the thread".
    fn read(&self, at: Closure, target: u16, field: u16) -> Focus {
        let Some(object) = self.value(at, target).target() else {
            return Focus::Failed;
        };
        Focus::Value(self.objects[object as usize].fields[self.field_index(object, field)])
    }

    fn field_index(&self, object: u16, field: u16) -> usize {
        let declared = self.program.types.fields(self.objects[object as usize].class);
        declared.iter().position(|record| record[0] == field).expect("well-typed targets have the field")
    }

    /// Leaves a frame and goes on at `next`.
    fn descend(&mut self, frame: Frame, next: Closure) -> Result<Focus, Unmoved> {
        if self.more_frames == 0 {
            return Err(Unmoved::Full(Stop::FramesFull));
        }
        self.frames.push(frame);
        Ok(Focus::Node(next))
    }

    /// "New makes an open object"; "the initial value of a field now follows its type, null or 0".
    fn create(&mut self, class: Type) -> Result<Focus, Unmoved> {
        if self.objects.len() == MOST_OBJECTS {
            return Err(Unmoved::Full(Stop::ObjectsFull));
        }
        let types = &self.program.types;
        let initial = |ty: Type| if ty == types.int { Value::Number(0) } else { Value::Null };
        let fields = types.fields(class).iter().map(|&[_, ty]| initial(ty)).collect();
        self.objects.push(Object { class, shut: false, fields });
        Ok(Focus::Value(Value::Object(self.objects.len() as u16 - 1)))
    }

    /// One thread becomes a join of two; the join keeps the frames.
    fn fork(&mut self, asyncs: [Closure; 2], last: Closure) -> Result<Focus, Unmoved> {
        if self.more_threads == 0 {
            return Err(Unmoved::Full(Stop::ThreadsFull));
        }
        let sides = asyncs.map(|at| Tree::new(Focus::Node(at)));
        Ok(Focus::Join { last, sides: Box::new(sides) })
    }

    /// "Null fails; open shuts and leaves a lock frame; held by this thread enters with no frame;
    /// shut and not held by this thread cannot move."
    fn lock(&mut self, target: Value, body: Closure) -> Result<Focus, Unmoved> {
        let Some(object) = target.target() else {
            return Ok(Focus::Failed);
        };
        if self.held.contains(&object) {
            return Ok(Focus::Node(body));
        }
        if self.objects[object as usize].shut {
            return Err(Unmoved::PassedOver);
        }
        let entered = self.descend(Frame::Lock { object }, body)?;
        self.objects[object as usize].shut = true;
        Ok(entered)
    }

    /// The move of a thread with a value: its last frame takes the value. A finished thread has none.
    fn resume(&mut self, value: Value) -> Result<Focus, Unmoved> {
        let &frame = self.frames.last().ok_or(Unmoved::PassedOver)?;
        let focus = match frame {
            Frame::Waiting(at) => self.wake(at, value)?,
            Frame::Cast { .. } => Focus::Value(value),
            Frame::Lock { object } => {
                self.objects[object as usize].shut = false;
                Focus::Value(value)
            }
        };
        self.frames.pop();
        Ok(focus)
    }

    fn wake(&mut self, at: Closure, value: Value) -> Result<Focus, Unmoved> {
        match self.program.expressions[at.node as usize] {
            Expr::Write { target, field, .. } => Ok(self.write(self.value(at, target), field, value)),
            Expr::Call { target, method, .. } => self.call(self.value(at, target), method, value),
            Expr::Let { variable, bound, body } => {
                let binding = Binding { name: variable, ty: self.infer(at, bound), value, beneath: at.environment };
                let environment = self.bind([binding])?;
                Ok(Focus::Node(Closure { node: body, environment }))
            }
            _ => unreachable!("well-formed frames wait at a write, call or let"),
        }
    }

    /// "The one inferred for the let's first part under the frame's bindings." There is one; where the part has no last part of its own, it takes no walk.
    fn infer(&self, at: Closure, bound: u16) -> Type {
        let bindings = || chain(self.bindings, at.environment).map(|binding| (binding.name, binding.ty));
        let nearest = |name: u16| bindings().find(|binding| binding.0 == name).map(|binding| binding.1);
        let types = &self.program.types;
        let inferred = match self.program.expressions[bound as usize] {
            Expr::New { class } => Some(class),
            Expr::Cast { ty, .. } => Some(ty),
            Expr::Write { .. } => Some(UNIT),
            Expr::Number { .. } | Expr::Sum { .. } => Some(types.int),
            Expr::Variable { variable } => nearest(variable),
            Expr::Read { target, field } => nearest(target).and_then(|ty| types.field(ty, field)),
            Expr::Call { target, method, .. } => {
                nearest(target).and_then(|ty| types.method(ty, method)).map(|found| found.result)
            }
            Expr::Null | Expr::Let { .. } | Expr::Fork { .. } | Expr::Lock { .. } => {
                self.program.typer().with(bindings()).infer(bound).ok()
            }
        };
        inferred.expect("well-formed let frames have a type for their first part")
    }

    /// "A waiting write stores and gives null."
    fn write(&mut self, target: Value, field: u16, value: Value) -> Focus {
        let Some(object) = target.target() else {
            return Focus::Failed;
        };
        let index = self.field_index(object, field);
        self.objects[object as usize].fields[index] = value;
        Focus::Value(Value::Null)
    }

    /// "Adds two, this with the object's class and the parameter with its declared type, and
    /// enters the body with no others."
    fn call(&mut self, target: Value, method: u16, argument: Value) -> Result<Focus, Unmoved> {
        let Some(object) = target.target() else {
            return Ok(Focus::Failed);
        };
        let class = self.objects[object as usize].class;
        let (parameter, body) = self.program.method(class, method).expect("well-typed targets have the method");
        let this_at = self.bindings.len() as u16;
        let environment = self.bind([
            Binding { name: THIS, ty: class, value: target, beneath: None },
            Binding { name: PARAMETER, ty: parameter, value: argument, beneath: Some(this_at) },
        ])?;
        Ok(Focus::Node(Closure { node: body, environment }))
    }

    /// Adds bindings, all or none; the last of them is then the nearest.
    fn bind<const N: usize>(&mut self, more: [Binding; N]) -> Result<Environment, Unmoved> {
        if self.bindings.len() + N > MOST_BINDINGS {
            return Err(Unmoved::Full(Stop::BindingsFull));
        }
        self.bindings.extend(more);
        Ok(Some(self.bindings.len() as u16 - 1))
    }
}
