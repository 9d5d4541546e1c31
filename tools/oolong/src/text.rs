//! What a text that Read has taken says of its file: the names behind the numbers, and where each record stands in the text.

use std::collections::HashMap;
use std::ops::Range;

#[cfg(test)]
mod tests;

/// Names by number, and the bytes of each record in the text, from its first token to its last.
pub struct Reading {
    /// By type number; 0 is Unit. Int, the last, is not here.
    pub types: Vec<String>,
    pub methods: Vec<String>,
    pub fields: Vec<String>,
    /// By variable number, from 2 on; 0 is `this`, and 1 is the parameter of the method around.
    pub variables: Vec<String>,
    /// The parameter's name of each method record.
    pub parameters: Vec<String>,
    /// For each section of the file, in its order, the records' bytes in the text.
    pub spans: [Vec<Range<usize>>; 6],
}

/// The words that are no names.
pub const WORDS: [&str; 15] = [
    "interface",
    "extends",
    "class",
    "implements",
    "def",
    "let",
    "in",
    "new",
    "finish",
    "async",
    "lock",
    "null",
    "Unit",
    "Int",
    "this",
];

/// The sections of a file, by their place in `Reading.spans`.
const INTERFACE: usize = 0;
const SIGNATURE: usize = 1;
const CLASS: usize = 2;
const FIELD: usize = 3;
const METHOD: usize = 4;
const NODE: usize = 5;

/// The reading of a text that `oolong_read` has not refused. Of another text it is the reading of what stands in front of the first token that does not fit.
pub fn reading(text: &[u8]) -> Reading {
    let empty = Reading {
        types: vec!["Unit".into()],
        methods: vec![],
        fields: vec![],
        variables: vec!["this".into(), "p".into()],
        parameters: vec![],
        spans: Default::default(),
    };
    let mut parser = Parser {
        text,
        tokens: tokens(text),
        at: 0,
        reading: empty,
        methods: HashMap::new(),
        fields: HashMap::new(),
        variables: HashMap::new(),
        parameter: b"",
        hidden: 0,
    };
    // A text that does not fit has no more to say.
    let _ = parser.program();
    parser.reading
}

/// The bytes of each token: the longest that stands there.
pub fn tokens(text: &[u8]) -> Vec<Range<usize>> {
    let mut tokens = Vec::new();
    let mut at = 0;
    while let Some(&byte) = text.get(at) {
        let rest = || text.iter().skip(at);
        let length = match byte {
            b'\t' | b'\n' | b'\r' | b' ' => 0,
            b'0'..=b'9' => rest().take_while(|byte| byte.is_ascii_digit()).count(),
            _ if begins_word(byte) => rest().take_while(|&&byte| begins_word(byte) || byte.is_ascii_digit()).count(),
            _ => 1,
        };
        if length > 0 {
            tokens.push(at..at + length);
        }
        at += length.max(1);
    }
    tokens
}

fn begins_word(byte: u8) -> bool {
    byte.is_ascii_alphabetic() || byte == b'_'
}

pub fn is_name(token: &[u8]) -> bool {
    token.first().is_some_and(|&byte| begins_word(byte)) && !WORDS.iter().any(|word| word.as_bytes() == token)
}

fn is_digits(token: &[u8]) -> bool {
    token.first().is_some_and(u8::is_ascii_digit)
}

fn string(token: &[u8]) -> String {
    String::from_utf8_lossy(token).into_owned()
}

/// Gives a name the next number, if it has none yet.
fn number<'a>(numbers: &mut HashMap<&'a [u8], usize>, names: &mut Vec<String>, name: &'a [u8]) {
    numbers.entry(name).or_insert_with(|| {
        names.push(string(name));
        names.len() - 1
    });
}

/// An expression that has parts.
#[derive(Clone, Copy, PartialEq)]
enum Form {
    Write,
    Call,
    Let,
    Cast,
    Fork,
    Lock,
}

/// An expression of which some parts are read.
struct Open<'a> {
    node: usize,
    form: Form,
    parts: usize,
    /// The variable of a let.
    name: &'a [u8],
}

/// Reads the tokens from the first on. None stands for a token that does not fit.
struct Parser<'a> {
    text: &'a [u8],
    tokens: Vec<Range<usize>>,
    /// The next token.
    at: usize,
    reading: Reading,
    methods: HashMap<&'a [u8], usize>,
    fields: HashMap<&'a [u8], usize>,
    variables: HashMap<&'a [u8], usize>,
    /// The parameter of the method around; no name in the start.
    parameter: &'a [u8],
    /// How many lets of the parameter's name are around, with what is read behind their `in`.
    hidden: usize,
}

impl<'a> Parser<'a> {
    /// A token, counted from the next one on; no byte behind the last.
    fn peek(&self, ahead: usize) -> &'a [u8] {
        let token = self.tokens.get(self.at + ahead).cloned();
        token.and_then(|span| self.text.get(span)).unwrap_or(b"")
    }

    fn is(&self, token: &str) -> bool {
        self.peek(0) == token.as_bytes()
    }

    /// Takes these tokens, which blanks separate here.
    fn take(&mut self, tokens: &str) -> Option<()> {
        for token in tokens.split(' ') {
            if !self.is(token) {
                return None;
            }
            self.at += 1;
        }
        Some(())
    }

    fn name(&mut self) -> Option<&'a [u8]> {
        let name = self.peek(0);
        self.at += usize::from(is_name(name));
        is_name(name).then_some(name)
    }

    fn type_name(&mut self) -> Option<()> {
        let token = self.peek(0);
        let fits = token == b"Unit" || token == b"Int" || is_name(token);
        self.at += usize::from(fits);
        fits.then_some(())
    }

    fn digits(&mut self) -> Option<()> {
        let fits = is_digits(self.peek(0));
        self.at += usize::from(fits);
        fits.then_some(())
    }

    /// Begins a record at the next token; its number.
    fn open(&mut self, section: usize) -> usize {
        let span = self.tokens.get(self.at).cloned().unwrap_or(self.text.len()..self.text.len());
        self.reading.spans[section].push(span);
        self.reading.spans[section].len() - 1
    }

    /// Ends a record with the token that was taken last.
    fn close(&mut self, section: usize, record: usize) {
        let last = self.at.checked_sub(1).and_then(|last| self.tokens.get(last));
        if let (Some(last), Some(span)) = (last, self.reading.spans[section].get_mut(record)) {
            span.end = last.end;
        }
    }

    fn program(&mut self) -> Option<()> {
        while self.is("interface") {
            self.interface()?;
        }
        while self.is("class") {
            self.class()?;
        }
        let bodies = self.reading.spans[NODE].len();
        self.parameter = b"";
        self.hidden = 0;
        let start = self.expression();
        // The start's nodes come first in the file.
        self.reading.spans[NODE].rotate_left(bodies);
        start
    }

    fn interface(&mut self) -> Option<()> {
        let record = self.open(INTERFACE);
        self.take("interface")?;
        let name = self.name()?;
        self.reading.types.push(string(name));
        if self.take("extends").is_some() {
            self.name()?;
            self.take(",")?;
            self.name()?;
        } else {
            self.take("{")?;
            while !self.is("}") {
                let record = self.open(SIGNATURE);
                self.signature()?;
                self.close(SIGNATURE, record);
            }
            self.take("}")?;
        }
        self.close(INTERFACE, record);
        Some(())
    }

    /// `m ( p : t ) : t`; the parameter.
    fn signature(&mut self) -> Option<&'a [u8]> {
        let name = self.name()?;
        number(&mut self.methods, &mut self.reading.methods, name);
        self.take("(")?;
        let parameter = self.name()?;
        self.take(":")?;
        self.type_name()?;
        self.take(") :")?;
        self.type_name()?;
        Some(parameter)
    }

    fn class(&mut self) -> Option<()> {
        let record = self.open(CLASS);
        self.take("class")?;
        let name = self.name()?;
        self.reading.types.push(string(name));
        self.take("implements")?;
        self.name()?;
        self.take("{")?;
        while is_name(self.peek(0)) {
            self.field()?;
        }
        while self.is("def") {
            self.method()?;
        }
        self.take("}")?;
        self.close(CLASS, record);
        Some(())
    }

    fn field(&mut self) -> Option<()> {
        let record = self.open(FIELD);
        let name = self.name()?;
        number(&mut self.fields, &mut self.reading.fields, name);
        self.take(":")?;
        self.type_name()?;
        self.close(FIELD, record);
        Some(())
    }

    fn method(&mut self) -> Option<()> {
        let record = self.open(METHOD);
        self.take("def")?;
        self.parameter = self.signature()?;
        self.hidden = 0;
        self.reading.parameters.push(string(self.parameter));
        self.take("{")?;
        self.expression()?;
        self.take("}")?;
        self.close(METHOD, record);
        Some(())
    }

    /// One expression with all its parts. What is open is kept in a list, so a text of any depth is read.
    fn expression(&mut self) -> Option<()> {
        let mut open: Vec<Open> = Vec::new();
        loop {
            let node = self.open(NODE);
            if let Some((form, name)) = self.head()? {
                open.push(Open { node, form, parts: 0, name });
                continue;
            }
            self.close(NODE, node);
            loop {
                let Some(mut last) = open.pop() else { return Some(()) };
                if self.goes_on(&mut last)? {
                    open.push(last);
                    break;
                }
                self.close(NODE, last.node);
            }
        }
    }

    /// An expression up to its first part: its form, and a let's variable. One without a part is read whole.
    fn head(&mut self) -> Option<Option<(Form, &'a [u8])>> {
        let token = self.peek(0);
        match token {
            b"null" => self.take("null")?,
            b"-" => {
                self.take("-")?;
                self.digits()?;
            }
            b"new" => {
                self.take("new")?;
                self.name()?;
            }
            b"let" => return Some(Some((Form::Let, self.let_head()?))),
            b"finish" => return self.take("finish { async {").map(|()| Some((Form::Fork, token))),
            b"lock" => {
                self.take("lock (")?;
                self.variable()?;
                return self.take(") in").map(|()| Some((Form::Lock, token)));
            }
            b"(" if self.peek(2) == b")" => {
                self.take("(")?;
                self.type_name()?;
                return self.take(")").map(|()| Some((Form::Cast, token)));
            }
            b"(" => {
                self.take("(")?;
                self.sum()?;
                self.take(")")?;
            }
            _ if is_digits(token) => self.digits()?,
            _ if self.peek(1) == b"+" => self.sum()?,
            _ => return self.variable_head(),
        }
        Some(None)
    }

    fn let_head(&mut self) -> Option<&'a [u8]> {
        self.take("let")?;
        let name = self.name()?;
        number(&mut self.variables, &mut self.reading.variables, name);
        self.take("=")?;
        Some(name)
    }

    /// A variable where it is used. One that the parameter binds has no number of its own.
    fn variable(&mut self) -> Option<()> {
        if self.take("this").is_some() {
            return Some(());
        }
        let name = self.name()?;
        if name != self.parameter || self.hidden > 0 {
            number(&mut self.variables, &mut self.reading.variables, name);
        }
        Some(())
    }

    fn sum(&mut self) -> Option<()> {
        self.variable()?;
        self.take("+")?;
        self.variable()
    }

    /// `x`, `x . f`, `x . f =` or `x . m (`.
    fn variable_head(&mut self) -> Option<Option<(Form, &'a [u8])>> {
        self.variable()?;
        if self.take(".").is_none() {
            return Some(None);
        }
        let name = self.name()?;
        if self.take("(").is_some() {
            number(&mut self.methods, &mut self.reading.methods, name);
            return Some(Some((Form::Call, name)));
        }
        number(&mut self.fields, &mut self.reading.fields, name);
        Some(self.take("=").map(|()| (Form::Write, name)))
    }

    /// Reads on behind a part of an expression: whether another part follows.
    fn goes_on(&mut self, open: &mut Open) -> Option<bool> {
        open.parts += 1;
        let hides = usize::from(open.form == Form::Let && open.name == self.parameter);
        match (open.form, open.parts) {
            (Form::Call, _) => self.take(")")?,
            (Form::Let, 1) => {
                self.take("in")?;
                self.hidden += hides;
                return Some(true);
            }
            (Form::Let, _) => self.hidden = self.hidden.saturating_sub(hides),
            (Form::Fork, 1) => return self.take("} async {").map(|()| true),
            (Form::Fork, 2) => return self.take("} } ;").map(|()| true),
            _ => {}
        }
        Some(false)
    }
}
