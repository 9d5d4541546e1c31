//! Tokens, one at a time.

#[derive(Clone, Copy, Debug, PartialEq, Eq)]
pub enum Token {
    Interface,
    Extends,
    Class,
    Implements,
    Def,
    Let,
    In,
    New,
    Finish,
    Async,
    Lock,
    Null,
    Unit,
    Int,
    This,
    Name,
    Digits,
    OpenBrace,
    CloseBrace,
    Open,
    Close,
    Colon,
    Comma,
    Dot,
    Equals,
    Semicolon,
    Plus,
    Minus,
    Blank,
    Stray,
    End,
}

/// What a byte begins: a name stands for every word.
const BEGUN: [Token; 256] = begun();

const fn begun() -> [Token; 256] {
    let mut begun = [Token::Stray; 256];
    let mut byte = 0;
    while byte < 256 {
        begun[byte] = match byte as u8 {
            9 | 10 | 13 | 32 => Token::Blank,
            b'a'..=b'z' | b'A'..=b'Z' | b'_' => Token::Name,
            b'0'..=b'9' => Token::Digits,
            b'{' => Token::OpenBrace,
            b'}' => Token::CloseBrace,
            b'(' => Token::Open,
            b')' => Token::Close,
            b':' => Token::Colon,
            b',' => Token::Comma,
            b'.' => Token::Dot,
            b'=' => Token::Equals,
            b';' => Token::Semicolon,
            b'+' => Token::Plus,
            b'-' => Token::Minus,
            _ => Token::Stray,
        };
        byte += 1;
    }
    begun
}

/// The text, and where the present token lies in it.
pub struct Tokens<'t> {
    text: &'t [u8],
    begin: usize,
    end: usize,
    pub token: Token,
}

impl<'t> Tokens<'t> {
    /// At the first token.
    pub fn new(text: &'t [u8]) -> Tokens<'t> {
        let mut tokens = Tokens { text, begin: 0, end: 0, token: Token::End };
        tokens.advance();
        tokens
    }

    pub fn place(&self) -> u32 {
        self.begin as u32
    }

    pub fn spelling(&self) -> &'t [u8] {
        &self.text[self.begin..self.end]
    }

    pub fn advance(&mut self) {
        let text = self.text;
        let begun = |at: usize| text.get(at).map_or(Token::End, |&byte| BEGUN[byte as usize]);
        let mut at = self.end;
        while begun(at) == Token::Blank {
            at += 1;
        }
        self.begin = at;
        self.token = begun(at);
        match self.token {
            Token::Name => {
                while matches!(begun(at), Token::Name | Token::Digits) {
                    at += 1;
                }
                self.token = word(&text[self.begin..at]);
            }
            Token::Digits => {
                while begun(at) == Token::Digits {
                    at += 1;
                }
            }
            Token::End => {}
            _ => at += 1,
        }
        self.end = at;
    }
}

fn word(spelling: &[u8]) -> Token {
    match spelling {
        b"in" => Token::In,
        b"let" => Token::Let,
        b"new" => Token::New,
        b"def" => Token::Def,
        b"Int" => Token::Int,
        b"this" => Token::This,
        b"null" => Token::Null,
        b"lock" => Token::Lock,
        b"Unit" => Token::Unit,
        b"class" => Token::Class,
        b"async" => Token::Async,
        b"finish" => Token::Finish,
        b"extends" => Token::Extends,
        b"interface" => Token::Interface,
        b"implements" => Token::Implements,
        _ => Token::Name,
    }
}
