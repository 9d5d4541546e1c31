//! A script that Check accepts, with the tables that running it needs.

use crate::expr::Expr;
use crate::script::Script;
use crate::shape;
use crate::types::{Type, Types};
use crate::typing::{Typer, Typing};
use crate::Refusal;

pub struct Program {
    pub script: Script,
    pub types: Types,
    /// By node, with variables as the file names them.
    pub expressions: Vec<Expr>,
    pub start_type: Type,
    typing: Typing,
}

impl Program {
    /// Asks questions 1 to 15 in order; each step hands on what later steps may rely on.
    pub fn read(bytes: &[u8]) -> Result<Program, Refusal> {
        let script = Script::read(bytes)?;
        let expressions = shape::expressions(&script)?;
        let types = Types::of(&script)?;
        let typing = Typing::of(expressions.clone());
        let start_type = Typer::new(&script, &types, &typing).start_type()?;
        Ok(Program { script, types, expressions, start_type, typing })
    }

    /// A typer in the environment without a variable.
    pub fn typer(&self) -> Typer<'_> {
        Typer::new(&self.script, &self.types, &self.typing)
    }

    /// methods(C)(m): the type of the parameter, and the body.
    pub fn method(&self, class: Type, name: u16) -> Option<(Type, u16)> {
        let index = class.checked_sub(self.script.class_type(0))?;
        let run = self.script.method_runs().nth(index as usize)?;
        let &[_, parameter, _, body] = self.script.methods[run].iter().find(|method| method[0] == name)?;
        Some((parameter, body))
    }
}
