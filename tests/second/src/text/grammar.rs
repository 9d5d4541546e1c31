//! The grammar, read off the tokens: Figure 2 without its run-time forms, with Int, integers and sums. Declarations are read by a function for each production. Expressions nest as deep as a text
//! is long, so what is still to come of those begun stands in a list, and nothing here calls itself.

use crate::text::tokens::{tokens, Sort, Token};
use std::ops::Range;

/// P ::= Ids Cds e
pub struct Program<'t> {
    pub interfaces: Vec<Interface<'t>>,
    pub classes: Vec<Class<'t>>,
    pub start: Expression,
    /// Of all expressions, in the order of their first tokens: the bodies' before the start's.
    pub nodes: Vec<Node<'t>>,
}

/// A name, and the offset of its token.
#[derive(Clone, Copy)]
pub struct Name<'t> {
    pub spelling: &'t [u8],
    pub at: usize,
}

pub struct Interface<'t> {
    pub at: usize,
    pub name: Name<'t>,
    pub form: InterfaceForm<'t>,
}

/// Id ::= interface T { Msigs } | interface T extends T , T
pub enum InterfaceForm<'t> {
    List(Vec<Signature<'t>>),
    Join([Name<'t>; 2]),
}

/// Cd ::= class T implements T { Fds Mds }
pub struct Class<'t> {
    pub at: usize,
    pub name: Name<'t>,
    pub interface: Name<'t>,
    pub fields: Vec<Field<'t>>,
    pub methods: Vec<Method<'t>>,
}

/// Msig ::= m ( p : t ) : t
pub struct Signature<'t> {
    pub method: Name<'t>,
    pub parameter: Name<'t>,
    pub types: [Type<'t>; 2],
}

/// Fd ::= f : t
pub struct Field<'t> {
    pub name: Name<'t>,
    pub ty: Type<'t>,
}

/// Md ::= def Msig { e }
pub struct Method<'t> {
    pub at: usize,
    pub signature: Signature<'t>,
    pub body: Expression,
}

/// t ::= T | Unit | Int
#[derive(Clone, Copy)]
pub enum Type<'t> {
    Declared(Name<'t>),
    Unit,
    Int,
}

/// x ::= y | this
#[derive(Clone, Copy)]
pub enum Variable<'t> {
    Named(&'t [u8]),
    This,
}

/// The nodes of a whole expression; the first is the expression itself.
pub type Expression = Range<usize>;

/// An expression without its parts, which are nodes further on.
pub struct Node<'t> {
    pub at: usize,
    pub form: Form<'t>,
    pub parts: Vec<usize>,
}

#[derive(Clone, Copy)]
pub enum Form<'t> {
    Null,
    Variable(Variable<'t>),
    Read(Variable<'t>, &'t [u8]),
    Update(Variable<'t>, &'t [u8]),
    Call(Variable<'t>, &'t [u8]),
    Let(&'t [u8]),
    New(Name<'t>),
    Cast(Type<'t>),
    Fork,
    Lock(Variable<'t>),
    Integer { negative: bool, digits: &'t [u8] },
    Sum([Variable<'t>; 2]),
}

/// What follows the head of an expression: its parts, and what stands between and behind them.
#[derive(Clone, Copy)]
enum Rest {
    Part,
    Spelled(&'static str),
}

impl Form<'_> {
    fn rest(&self) -> &'static [Rest] {
        use Rest::{Part, Spelled};
        match self {
            Form::Update(..) | Form::Cast(_) | Form::Lock(_) => &[Part],
            Form::Call(..) => &[Part, Spelled(")")],
            Form::Let(_) => &[Part, Spelled("in"), Part],
            Form::Fork => &[Part, Spelled("} async {"), Part, Spelled("} } ;"), Part],
            _ => &[],
        }
    }
}

/// What was read, or the offset of the token that "fits no legal continuation".
type Parsed<T> = Result<T, usize>;

/// The text's one derivation, or the place of 34.
pub fn parse(text: &[u8]) -> Parsed<Program<'_>> {
    Parser { tokens: tokens(text), next: 0, nodes: vec![] }.program()
}

struct Parser<'t> {
    tokens: Vec<Token<'t>>,
    next: usize,
    nodes: Vec<Node<'t>>,
}

impl<'t> Parser<'t> {
    /// The token that so many others stand before, or the end.
    fn ahead(&self, count: usize) -> Token<'t> {
        self.tokens[(self.next + count).min(self.tokens.len() - 1)]
    }

    fn sees(&self, spelled: &str) -> bool {
        self.ahead(0).is(spelled)
    }

    fn take(&mut self, fits: bool) -> Parsed<Token<'t>> {
        let token = self.ahead(0);
        if !fits {
            return Err(token.at);
        }
        self.next += 1;
        Ok(token)
    }

    /// These words and signs, one after another.
    fn spelled(&mut self, all: &str) -> Parsed<()> {
        for one in all.split(' ') {
            self.take(self.sees(one))?;
        }
        Ok(())
    }

    fn name(&mut self) -> Parsed<Name<'t>> {
        let Token { spelling, at, .. } = self.take(self.ahead(0).sort == Sort::Name)?;
        Ok(Name { spelling, at })
    }

    fn digits(&mut self) -> Parsed<&'t [u8]> {
        Ok(self.take(self.ahead(0).sort == Sort::Digits)?.spelling)
    }

    fn program(mut self) -> Parsed<Program<'t>> {
        let (mut interfaces, mut classes) = (vec![], vec![]);
        while self.sees("interface") {
            interfaces.push(self.interface()?);
        }
        while self.sees("class") {
            classes.push(self.class()?);
        }
        let start = self.expression()?;
        self.take(self.ahead(0).sort == Sort::End)?;
        Ok(Program { interfaces, classes, start, nodes: self.nodes })
    }

    fn interface(&mut self) -> Parsed<Interface<'t>> {
        let at = self.ahead(0).at;
        self.spelled("interface")?;
        let name = self.name()?;
        let form = if self.sees("extends") { self.join()? } else { self.list()? };
        Ok(Interface { at, name, form })
    }

    fn join(&mut self) -> Parsed<InterfaceForm<'t>> {
        self.spelled("extends")?;
        let left = self.name()?;
        self.spelled(",")?;
        let right = self.name()?;
        Ok(InterfaceForm::Join([left, right]))
    }

    fn list(&mut self) -> Parsed<InterfaceForm<'t>> {
        let mut signatures = vec![];
        self.spelled("{")?;
        while !self.sees("}") {
            signatures.push(self.signature()?);
        }
        self.spelled("}")?;
        Ok(InterfaceForm::List(signatures))
    }

    fn class(&mut self) -> Parsed<Class<'t>> {
        let at = self.ahead(0).at;
        self.spelled("class")?;
        let name = self.name()?;
        self.spelled("implements")?;
        let interface = self.name()?;
        self.spelled("{")?;
        let (mut fields, mut methods) = (vec![], vec![]);
        while self.ahead(0).sort == Sort::Name {
            fields.push(self.field()?);
        }
        while self.sees("def") {
            methods.push(self.method()?);
        }
        self.spelled("}")?;
        Ok(Class { at, name, interface, fields, methods })
    }

    fn signature(&mut self) -> Parsed<Signature<'t>> {
        let method = self.name()?;
        self.spelled("(")?;
        let parameter = self.name()?;
        self.spelled(":")?;
        let from = self.ty()?;
        self.spelled(") :")?;
        let to = self.ty()?;
        Ok(Signature { method, parameter, types: [from, to] })
    }

    fn field(&mut self) -> Parsed<Field<'t>> {
        let name = self.name()?;
        self.spelled(":")?;
        let ty = self.ty()?;
        Ok(Field { name, ty })
    }

    fn method(&mut self) -> Parsed<Method<'t>> {
        let at = self.ahead(0).at;
        self.spelled("def")?;
        let signature = self.signature()?;
        self.spelled("{")?;
        let body = self.expression()?;
        self.spelled("}")?;
        Ok(Method { at, signature, body })
    }

    fn ty(&mut self) -> Parsed<Type<'t>> {
        for (word, ty) in [("Unit", Type::Unit), ("Int", Type::Int)] {
            if self.sees(word) {
                self.spelled(word)?;
                return Ok(ty);
            }
        }
        Ok(Type::Declared(self.name()?))
    }

    fn variable(&mut self) -> Parsed<Variable<'t>> {
        if self.sees("this") {
            self.spelled("this")?;
            return Ok(Variable::This);
        }
        Ok(Variable::Named(self.name()?.spelling))
    }

    /// Each part is to come for a node that is begun; the expression itself is no node's part.
    fn expression(&mut self) -> Parsed<Expression> {
        let first = self.nodes.len();
        let mut to_come: Vec<(Rest, Option<usize>)> = vec![(Rest::Part, None)];
        while let Some((rest, owner)) = to_come.pop() {
            if let Rest::Spelled(all) = rest {
                self.spelled(all)?;
                continue;
            }
            let (number, at) = (self.nodes.len(), self.ahead(0).at);
            let form = self.head()?;
            self.nodes.push(Node { at, form, parts: vec![] });
            if let Some(owner) = owner {
                self.nodes[owner].parts.push(number);
            }
            to_come.extend(form.rest().iter().rev().map(|&rest| (rest, Some(number))));
        }
        Ok(first..self.nodes.len())
    }

    /// An expression as far as its first part.
    fn head(&mut self) -> Parsed<Form<'t>> {
        let token = self.ahead(0);
        if token.sort == Sort::Digits {
            return Ok(Form::Integer { negative: false, digits: self.digits()? });
        }
        if token.sort != Sort::Spelled || token.is("this") {
            return self.variable_form();
        }
        match token.spelling {
            b"null" => {
                self.spelled("null")?;
                Ok(Form::Null)
            }
            b"let" => {
                self.spelled("let")?;
                let name = self.name()?;
                self.spelled("=")?;
                Ok(Form::Let(name.spelling))
            }
            b"new" => {
                self.spelled("new")?;
                Ok(Form::New(self.name()?))
            }
            b"(" => self.parenthesis(),
            b"finish" => {
                self.spelled("finish { async {")?;
                Ok(Form::Fork)
            }
            b"lock" => {
                self.spelled("lock (")?;
                let target = self.variable()?;
                self.spelled(") in")?;
                Ok(Form::Lock(target))
            }
            b"-" => {
                self.spelled("-")?;
                Ok(Form::Integer { negative: true, digits: self.digits()? })
            }
            _ => Err(token.at),
        }
    }

    /// x | x . f | x . f = e | x . m ( e ) | x + x
    fn variable_form(&mut self) -> Parsed<Form<'t>> {
        let variable = self.variable()?;
        if self.sees("+") {
            self.spelled("+")?;
            return Ok(Form::Sum([variable, self.variable()?]));
        }
        if !self.sees(".") {
            return Ok(Form::Variable(variable));
        }
        self.spelled(".")?;
        let member = self.name()?.spelling;
        if self.sees("=") {
            self.spelled("=")?;
            return Ok(Form::Update(variable, member));
        }
        if self.sees("(") {
            self.spelled("(")?;
            return Ok(Form::Call(variable, member));
        }
        Ok(Form::Read(variable, member))
    }

    /// ( t ) e | ( x + x ): a name may be either, and the token behind it tells.
    fn parenthesis(&mut self) -> Parsed<Form<'t>> {
        self.spelled("(")?;
        if self.sees("this") || (self.ahead(0).sort == Sort::Name && self.ahead(1).is("+")) {
            let one = self.variable()?;
            self.spelled("+")?;
            let other = self.variable()?;
            self.spelled(")")?;
            return Ok(Form::Sum([one, other]));
        }
        let ty = self.ty()?;
        self.spelled(")")?;
        Ok(Form::Cast(ty))
    }
}
