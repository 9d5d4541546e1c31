//! Questions 21, 26 and 27: is the block a well-formed configuration of this script? Figure 7, read as document 01's
//! paragraph on the block says, in request 5's three parts: "Objects are examined first, then bindings, then frames and
//! threads, each part assuming the earlier ones sound."

use crate::block::{read_bindings, read_objects, read_threads};
use crate::expr::Expr;
use crate::program::Program;
use crate::state::{chain, Binding, Closure, Environment, Focus, Frame, Object, State, Tree, Value};
use crate::types::{Type, Types, UNIT};
use crate::typing::Typer;
use crate::Question;
use std::cell::RefCell;
use std::collections::{HashMap, HashSet};

/// What the surroundings of a value ask of it.
#[derive(Clone, Copy, Debug, PartialEq, Eq, Hash)]
enum Want {
    Below(Type),
    /// "To any type at an async."
    Anything,
}

impl Want {
    /// The type that is wanted, if one is.
    fn upper(self) -> Option<Type> {
        match self {
            Want::Below(ty) => Some(ty),
            Want::Anything => None,
        }
    }
}

/// The state that a block of the right length holds, or the first of the three questions that gets a no.
pub fn state_of(program: &Program, block: &[u8]) -> Result<State, Question> {
    let types = &program.types;
    let objects = read_objects(block, types).filter(|objects| Heap { types, objects }.is_sound());
    let objects = objects.ok_or(Question::BlockObjects)?;
    let heap = Heap { types, objects: &objects };
    let bindings = read_bindings(block).filter(|bindings| heap.bindings_fit(bindings));
    let bindings = bindings.ok_or(Question::BlockBindings)?;
    let judge = Judge { program, heap, bindings: &bindings, lets: RefCell::default() };
    let tree = read_threads(block).filter(|tree| judge.is_sound(tree)).ok_or(Question::BlockThreads)?;
    Ok(State { objects, bindings, tree })
}

/// The objects that values may name.
struct Heap<'a> {
    types: &'a Types,
    objects: &'a [Object],
}

impl Heap<'_> {
    fn is_sound(&self) -> bool {
        self.objects.iter().all(|object| self.object_fits(object))
    }

    /// WF-FIELDS: each field's value is of the declared type.
    fn object_fits(&self, object: &Object) -> bool {
        let declared = self.types.fields(object.class);
        declared.iter().zip(&object.fields).all(|(&[_, ty], &value)| self.value_fits(value, Want::Below(ty)))
    }

    /// WF-VARS: the value is of the type; and "links run to earlier bindings".
    fn bindings_fit(&self, bindings: &[Binding]) -> bool {
        (0u16..).zip(bindings).all(|(index, binding)| {
            self.types.is_type(binding.ty)
                && self.value_fits(binding.value, Want::Below(binding.ty))
                && binding.beneath.is_none_or(|beneath| beneath < index)
        })
    }

    /// WF-NULL and WF-LOC: null is of every type but Int, an object of those that its class is
    /// below; a number is of type Int.
    fn value_fits(&self, value: Value, want: Want) -> bool {
        match value {
            Value::Null => want.upper().is_none_or(|ty| self.types.null_fits(ty)),
            Value::Object(object) => {
                self.objects.get(object as usize).is_some_and(|object| self.meets(object.class, want))
            }
            Value::Number(_) => self.meets(self.types.int, want),
        }
    }

    fn meets(&self, ty: Type, want: Want) -> bool {
        match want {
            Want::Below(upper) => self.types.below(ty, upper),
            Want::Anything => true,
        }
    }
}

/// A node, the types of the script's variables, and what is wanted of the node.
type WantedNode = (u16, Vec<Option<Type>>, Want);

/// Sound objects and bindings, under which frames and threads are judged.
struct Judge<'a> {
    program: &'a Program,
    heap: Heap<'a>,
    bindings: &'a [Binding],
    /// What was found of let frames: a method that calls itself leaves many that are alike.
    lets: RefCell<HashMap<WantedNode, Option<Type>>>,
}

impl<'a> Judge<'a> {
    fn is_sound(&self, tree: &Tree) -> bool {
        self.tree_fits(tree, Want::Below(self.program.start_type)) && self.locks_fit(tree)
    }

    /// WF-T-ASYNC, WF-T-THREAD and WF-T-EXN. Each frame hands on what it wants itself.
    fn tree_fits(&self, tree: &Tree, want: Want) -> bool {
        let innermost = tree.frames.iter().try_fold(want, |want, frame| self.awaited(frame, want));
        let Some(want) = innermost else {
            return false;
        };
        match &tree.focus {
            Focus::Node(at) => self.node_fits(*at, want),
            Focus::Value(value) => self.heap.value_fits(*value, want),
            Focus::Failed => true,
            Focus::Join { last, sides } => {
                self.node_fits(*last, want) && sides.iter().all(|side| self.tree_fits(side, Want::Anything))
            }
        }
    }

    /// Γ ⊢ e ⇐ t, for some t where anything is wanted.
    fn node_fits(&self, at: Closure, want: Want) -> bool {
        let (Some(_), Some(mut typer)) = (self.expression(at.node), self.typer(at.environment)) else {
            return false;
        };
        typer.check(at.node, want.upper()).is_ok()
    }

    /// What a frame waits for, if the frame is one and gives what is wanted of it.
    fn awaited(&self, frame: &Frame, want: Want) -> Option<Want> {
        let takes = match *frame {
            Frame::Lock { object } => return (usize::from(object) < self.heap.objects.len()).then_some(want),
            Frame::Cast { node } => match self.expression(node)? {
                Expr::Cast { ty, .. } => self.heap.meets(ty, want).then_some(ty)?,
                _ => return None,
            },
            Frame::Waiting(at) => self.takes(at, want)?,
        };
        Some(Want::Below(takes))
    }

    /// The type of the value that a write, call or let waits for, if it gives what is wanted. The
    /// part that has run is not asked again; a let's first part is, since its type is the
    /// variable's, and its last part is checked against what is wanted.
    fn takes(&self, at: Closure, want: Want) -> Option<Type> {
        let mut typer = self.typer(at.environment)?;
        match self.expression(at.node)? {
            Expr::Write { target, field, .. } => {
                let class = typer.variable(target)?;
                self.program.types.field(class, field).filter(|_| self.heap.meets(UNIT, want))
            }
            Expr::Call { target, method, .. } => {
                let ty = typer.variable(target)?;
                let signature = self.program.types.method(ty, method)?;
                self.heap.meets(signature.result, want).then_some(signature.parameter)
            }
            Expr::Let { bound, .. } => {
                let key = (at.node, typer.types().to_vec(), want);
                let infer = || {
                    typer.check(at.node, want.upper()).ok()?;
                    typer.infer(bound).ok()
                };
                *self.lets.borrow_mut().entry(key).or_insert_with(infer)
            }
            _ => None,
        }
    }

    fn expression(&self, node: u16) -> Option<Expr> {
        self.program.expressions.get(node as usize).copied()
    }

    /// Typing under these bindings, if there are such.
    fn typer(&self, environment: Environment) -> Option<Typer<'a>> {
        let exists = environment.is_none_or(|nearest| usize::from(nearest) < self.bindings.len());
        let bindings = || chain(self.bindings, environment).map(|binding| (binding.name, binding.ty));
        exists.then(|| self.program.typer().with(bindings()))
    }

    /// "All lock frames name distinct objects, each of them shut", and "with no failed thread no
    /// other objects are shut". So held objects are distinct, whoever holds them.
    fn locks_fit(&self, tree: &Tree) -> bool {
        let positions = tree.positions();
        let mut locked = HashSet::new();
        let distinct = positions.iter().flat_map(|position| position.tree.locks()).all(|object| locked.insert(object));
        let shut = |object: u16| self.heap.objects.get(object as usize).is_some_and(|object| object.shut);
        let others_shut = self.heap.objects.iter().filter(|object| object.shut).count() > locked.len();
        let some_failed = positions.iter().any(|position| position.tree.is_failed());
        distinct && locked.iter().all(|&object| shut(object)) && (some_failed || !others_shut)
    }
}
