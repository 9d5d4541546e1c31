//! The pass over the text.

use super::names::{Names, Types, INT, UNIT};
use super::tokens::{Token, Tokens};
use second::script::LIMITS;

/// The present token fits no legal continuation.
pub struct Unfit;

type Parsed<T> = Result<T, Unfit>;

/// What waits for an expression to end.
#[derive(Clone, Copy)]
enum Waiting {
    Let,
    Argument,
    FirstAsync,
    SecondAsync,
}

#[derive(Clone, Copy)]
struct Open {
    waiting: Waiting,
    node: u16,
    /// Whether a let hides the parameter in this node, and in the part of it that comes next.
    hidden: bool,
    hides: bool,
}

pub struct Reader<'t> {
    tokens: Tokens<'t>,
    /// Type words are those of `Types`, node numbers count in text order. No section has more records than its limit.
    pub interfaces: Vec<[u16; 3]>,
    pub signatures: Vec<[u16; 3]>,
    pub classes: Vec<[u16; 3]>,
    pub fields: Vec<[u16; 2]>,
    pub methods: Vec<[u16; 4]>,
    pub nodes: Vec<[u16; 4]>,
    /// How many nodes stand before the start.
    pub bodies: u16,
    pub types: Types<'t>,
    /// The first record or integer that passes a limit.
    pub too_much: Option<u32>,
    method_names: Names<'t>,
    field_names: Names<'t>,
    variable_names: Names<'t>,
    parameter: Option<&'t [u8]>,
    hidden: bool,
    open: Vec<Open>,
}

/// Puts a record into its section, or notes that there is one too many.
macro_rules! record {
    ($reader:ident . $section:ident, $limit:expr, $place:expr, $words:expr) => {
        if $reader.$section.len() < $limit {
            $reader.$section.push($words);
        } else {
            $reader.too_much.get_or_insert($place);
        }
    };
}

impl<'t> Reader<'t> {
    pub fn new(text: &'t [u8]) -> Reader<'t> {
        Reader {
            tokens: Tokens::new(text),
            interfaces: vec![],
            signatures: vec![],
            classes: vec![],
            fields: vec![],
            methods: vec![],
            nodes: vec![],
            bodies: 0,
            types: Types::default(),
            too_much: None,
            method_names: Names::default(),
            field_names: Names::default(),
            variable_names: Names::default(),
            parameter: None,
            hidden: false,
            open: vec![],
        }
    }

    pub fn place(&self) -> u32 {
        self.tokens.place()
    }

    fn sees(&self, token: Token) -> bool {
        self.tokens.token == token
    }

    fn expect(&mut self, token: Token) -> Parsed<()> {
        if !self.sees(token) {
            return Err(Unfit);
        }
        self.tokens.advance();
        Ok(())
    }

    fn name(&mut self) -> Parsed<&'t [u8]> {
        let spelling = self.tokens.spelling();
        self.expect(Token::Name)?;
        Ok(spelling)
    }

    pub fn program(&mut self) -> Parsed<()> {
        while self.sees(Token::Interface) {
            self.interface()?;
        }
        while self.sees(Token::Class) {
            self.class()?;
        }
        self.bodies = self.nodes.len() as u16;
        self.parameter = None;
        self.expression()?;
        self.expect(Token::End)
    }

    fn interface(&mut self) -> Parsed<()> {
        let place = self.place();
        self.tokens.advance();
        self.declaration()?;
        if self.sees(Token::Extends) {
            self.tokens.advance();
            let left = self.type_name()?;
            self.expect(Token::Comma)?;
            let right = self.type_name()?;
            record!(self.interfaces, LIMITS[0], place, [1, left, right]);
            return Ok(());
        }
        self.expect(Token::OpenBrace)?;
        // The record comes before its signatures, so that of several faults the first is noted.
        let index = self.interfaces.len();
        record!(self.interfaces, LIMITS[0], place, [0; 3]);
        let first = self.signatures.len();
        while !self.sees(Token::CloseBrace) {
            let place = self.place();
            let (_, words) = self.signature()?;
            record!(self.signatures, LIMITS[1], place, words);
        }
        self.tokens.advance();
        if let Some(words) = self.interfaces.get_mut(index) {
            words[1] = (self.signatures.len() - first) as u16;
        }
        Ok(())
    }

    fn class(&mut self) -> Parsed<()> {
        let place = self.place();
        self.tokens.advance();
        self.declaration()?;
        self.expect(Token::Implements)?;
        let interface = self.type_name()?;
        self.expect(Token::OpenBrace)?;
        let index = self.classes.len();
        record!(self.classes, LIMITS[2], place, [interface, 0, 0]);
        let (first_field, first_method) = (self.fields.len(), self.methods.len());
        while self.sees(Token::Name) {
            self.field()?;
        }
        while self.sees(Token::Def) {
            self.method()?;
        }
        self.expect(Token::CloseBrace)?;
        if let Some(words) = self.classes.get_mut(index) {
            words[1] = (self.fields.len() - first_field) as u16;
            words[2] = (self.methods.len() - first_method) as u16;
        }
        Ok(())
    }

    fn field(&mut self) -> Parsed<()> {
        let place = self.place();
        let name = self.name()?;
        let name = self.field_names.number(name);
        self.expect(Token::Colon)?;
        let ty = self.ty()?;
        record!(self.fields, LIMITS[3], place, [name, ty]);
        Ok(())
    }

    fn method(&mut self) -> Parsed<()> {
        let place = self.place();
        self.tokens.advance();
        let (parameter, [name, from, to]) = self.signature()?;
        self.expect(Token::OpenBrace)?;
        let body = self.nodes.len() as u16;
        record!(self.methods, LIMITS[4], place, [name, from, to, body]);
        self.parameter = Some(parameter);
        self.expression()?;
        self.expect(Token::CloseBrace)
    }

    /// The parameter, and the words of the record.
    fn signature(&mut self) -> Parsed<(&'t [u8], [u16; 3])> {
        let name = self.name()?;
        let name = self.method_names.number(name);
        self.expect(Token::Open)?;
        let parameter = self.name()?;
        self.expect(Token::Colon)?;
        let from = self.ty()?;
        self.expect(Token::Close)?;
        self.expect(Token::Colon)?;
        let to = self.ty()?;
        Ok((parameter, [name, from, to]))
    }

    fn declaration(&mut self) -> Parsed<()> {
        let place = self.place();
        let name = self.name()?;
        self.types.declare(name, place);
        Ok(())
    }

    fn type_name(&mut self) -> Parsed<u16> {
        let place = self.place();
        let name = self.name()?;
        Ok(self.types.used(name, place))
    }

    fn ty(&mut self) -> Parsed<u16> {
        let word = match self.tokens.token {
            Token::Unit => UNIT,
            Token::Int => INT,
            _ => return self.type_name(),
        };
        self.tokens.advance();
        Ok(word)
    }

    fn variable(&mut self) -> Parsed<u16> {
        if self.sees(Token::This) {
            self.tokens.advance();
            return Ok(0);
        }
        let name = self.name()?;
        Ok(self.number_of(name))
    }

    fn number_of(&mut self, name: &'t [u8]) -> u16 {
        if !self.hidden && Some(name) == self.parameter {
            return 1;
        }
        2 + self.variable_names.number(name)
    }

    /// Adds a node that begins here, and answers its number.
    fn node(&mut self, place: u32, words: [u16; 4]) -> u16 {
        let number = self.nodes.len() as u16;
        record!(self.nodes, LIMITS[5], place, words);
        number
    }

    fn wait(&mut self, waiting: Waiting, node: u16, hides: bool) {
        self.open.push(Open { waiting, node, hidden: self.hidden, hides });
    }

    /// The node that waits here has its part in this word at the next node.
    fn part_begins(&mut self, node: u16, word: usize) {
        let next = self.nodes.len() as u16;
        if let Some(words) = self.nodes.get_mut(usize::from(node)) {
            words[word] = next;
        }
    }

    fn expression(&mut self) -> Parsed<()> {
        self.hidden = false;
        loop {
            while !self.head()? {}
            if self.close()? {
                return Ok(());
            }
        }
    }

    /// Closes what waits for the expression that has ended, up to what goes on with a part; answers whether nothing is left.
    fn close(&mut self) -> Parsed<bool> {
        while let Some(Open { waiting, node, hidden, hides }) = self.open.pop() {
            match waiting {
                Waiting::Argument => {
                    self.expect(Token::Close)?;
                    continue;
                }
                Waiting::Let => {
                    self.expect(Token::In)?;
                    self.hidden = hidden || hides;
                    self.part_begins(node, 3);
                }
                Waiting::FirstAsync => {
                    self.expect(Token::CloseBrace)?;
                    self.expect(Token::Async)?;
                    self.expect(Token::OpenBrace)?;
                    self.hidden = hidden;
                    self.part_begins(node, 2);
                    self.wait(Waiting::SecondAsync, node, false);
                }
                Waiting::SecondAsync => {
                    self.expect(Token::CloseBrace)?;
                    self.expect(Token::CloseBrace)?;
                    self.expect(Token::Semicolon)?;
                    self.hidden = hidden;
                    self.part_begins(node, 3);
                }
            }
            return Ok(false);
        }
        Ok(true)
    }

    /// The head of an expression; answers whether the expression ends with it.
    fn head(&mut self) -> Parsed<bool> {
        let place = self.place();
        let next = self.nodes.len() as u16 + 1;
        match self.tokens.token {
            Token::Name | Token::This => return self.variable_form(place),
            Token::Open => return self.parenthesis(place),
            Token::Null => {
                self.tokens.advance();
                self.node(place, [0; 4]);
                Ok(true)
            }
            Token::Digits => self.integer(place, false),
            Token::Minus => {
                self.tokens.advance();
                self.integer(place, true)
            }
            Token::New => {
                self.tokens.advance();
                let class = self.type_name()?;
                self.node(place, [6, class, 0, 0]);
                Ok(true)
            }
            Token::Let => {
                self.tokens.advance();
                let name = self.name()?;
                self.expect(Token::Equals)?;
                let variable = 2 + self.variable_names.number(name);
                let node = self.node(place, [5, variable, next, 0]);
                self.wait(Waiting::Let, node, Some(name) == self.parameter);
                Ok(false)
            }
            Token::Finish => {
                self.tokens.advance();
                self.expect(Token::OpenBrace)?;
                self.expect(Token::Async)?;
                self.expect(Token::OpenBrace)?;
                let node = self.node(place, [8, next, 0, 0]);
                self.wait(Waiting::FirstAsync, node, false);
                Ok(false)
            }
            Token::Lock => {
                self.tokens.advance();
                self.expect(Token::Open)?;
                let target = self.variable()?;
                self.expect(Token::Close)?;
                self.expect(Token::In)?;
                self.node(place, [9, target, next, 0]);
                Ok(false)
            }
            _ => Err(Unfit),
        }
    }

    fn variable_form(&mut self, place: u32) -> Parsed<bool> {
        let variable = self.variable()?;
        let next = self.nodes.len() as u16 + 1;
        match self.tokens.token {
            Token::Plus => {
                self.tokens.advance();
                let other = self.variable()?;
                self.node(place, [11, variable, other, 0]);
                return Ok(true);
            }
            Token::Dot => self.tokens.advance(),
            _ => {
                self.node(place, [1, variable, 0, 0]);
                return Ok(true);
            }
        }
        let name = self.name()?;
        match self.tokens.token {
            Token::Equals => {
                self.tokens.advance();
                let field = self.field_names.number(name);
                self.node(place, [3, variable, field, next]);
                Ok(false)
            }
            Token::Open => {
                self.tokens.advance();
                let method = self.method_names.number(name);
                let node = self.node(place, [4, variable, method, next]);
                self.wait(Waiting::Argument, node, false);
                Ok(false)
            }
            _ => {
                let field = self.field_names.number(name);
                self.node(place, [2, variable, field, 0]);
                Ok(true)
            }
        }
    }

    fn parenthesis(&mut self, place: u32) -> Parsed<bool> {
        self.tokens.advance();
        let (inside, at) = (self.tokens.spelling(), self.place());
        let first = self.tokens.token;
        if !matches!(first, Token::Name | Token::This | Token::Unit | Token::Int) {
            return Err(Unfit);
        }
        self.tokens.advance();
        if matches!(first, Token::Unit | Token::Int) || (first == Token::Name && self.sees(Token::Close)) {
            self.expect(Token::Close)?;
            let ty = match first {
                Token::Unit => UNIT,
                Token::Int => INT,
                _ => self.types.used(inside, at),
            };
            let next = self.nodes.len() as u16 + 1;
            self.node(place, [7, ty, next, 0]);
            return Ok(false);
        }
        self.expect(Token::Plus)?;
        let one = if first == Token::This { 0 } else { self.number_of(inside) };
        let other = self.variable()?;
        self.expect(Token::Close)?;
        self.node(place, [11, one, other, 0]);
        Ok(true)
    }

    fn integer(&mut self, place: u32, negative: bool) -> Parsed<bool> {
        let digits = self.tokens.spelling();
        self.expect(Token::Digits)?;
        let least = 1 << 31;
        let mut size = 0u64;
        for digit in digits {
            size = (10 * size + u64::from(digit - b'0')).min(least + 1);
        }
        let number = if negative { size.wrapping_neg() } else { size };
        if size > least || (size == least && !negative) {
            self.too_much.get_or_insert(place);
        }
        self.node(place, [10, number as u16, (number >> 16) as u16, 0]);
        Ok(true)
    }
}
