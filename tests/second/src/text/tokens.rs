//! The tokens of a text: "bytes 9, 10, 13 and 32 only separate tokens, each the longest there".

/// The words that the grammar spells out.
pub const WORDS: [&str; 15] = [
    "interface",
    "extends",
    "class",
    "implements",
    "def",
    "let",
    "in",
    "new",
    "finish",
    "async",
    "lock",
    "null",
    "Unit",
    "Int",
    "this",
];

/// The signs that the grammar spells out, one byte each.
pub const SIGNS: &[u8] = b"{}():,.=;+-";

const BLANKS: [u8; 4] = [9, 10, 13, 32];

#[derive(Clone, Copy, Debug, PartialEq, Eq)]
pub enum Sort {
    /// A word or a sign that the grammar spells out.
    Spelled,
    Name,
    Digits,
    /// A byte that begins no token.
    Stray,
    /// Behind the last token.
    End,
}

#[derive(Clone, Copy, Debug)]
pub struct Token<'t> {
    pub sort: Sort,
    pub spelling: &'t [u8],
    /// The offset of its first byte; that of the end is the text's length.
    pub at: usize,
}

impl Token<'_> {
    /// Whether it is this word or sign of the grammar.
    pub fn is(&self, spelled: &str) -> bool {
        self.sort == Sort::Spelled && self.spelling == spelled.as_bytes()
    }
}

/// The text's tokens, and the end behind them.
pub fn tokens(text: &[u8]) -> Vec<Token<'_>> {
    let mut tokens = vec![];
    let mut at = 0;
    while at < text.len() {
        if BLANKS.contains(&text[at]) {
            at += 1;
            continue;
        }
        let spelling = longest(&text[at..]);
        tokens.push(Token { sort: sort(spelling), spelling, at });
        at += spelling.len();
    }
    tokens.push(Token { sort: Sort::End, spelling: &[], at });
    tokens
}

fn begins_word(byte: u8) -> bool {
    byte.is_ascii_alphabetic() || byte == b'_'
}

fn is_in_word(byte: u8) -> bool {
    begins_word(byte) || byte.is_ascii_digit()
}

/// The longest token at the beginning of these bytes, the first of which is no blank.
fn longest(bytes: &[u8]) -> &[u8] {
    let while_all = |holds: fn(u8) -> bool| bytes.iter().take_while(|&&byte| holds(byte)).count();
    let length = match bytes[0] {
        first if begins_word(first) => while_all(is_in_word),
        first if first.is_ascii_digit() => while_all(|byte| byte.is_ascii_digit()),
        _ => 1,
    };
    &bytes[..length]
}

fn sort(spelling: &[u8]) -> Sort {
    match spelling[0] {
        _ if WORDS.iter().any(|word| word.as_bytes() == spelling) => Sort::Spelled,
        first if begins_word(first) => Sort::Name,
        first if first.is_ascii_digit() => Sort::Digits,
        first if SIGNS.contains(&first) => Sort::Spelled,
        _ => Sort::Stray,
    }
}
