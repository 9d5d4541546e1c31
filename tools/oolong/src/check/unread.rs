//! Why Read refuses a text: 34, 35 and 36.

use super::excerpt::position;
use super::shape::{counted, MOST};
use super::FILE;
use crate::script::SECTIONS;
use crate::text::{is_name, reading, tokens, WORDS};
use std::ops::Range;

const TEXT_MOST: usize = 65_536;
const GRAMMAR: u16 = 34;
const DECLARATION: u16 = 35;
const ROOM: u16 = 36;

/// The signs of the grammar, and a name and digits that stand for all.
const SIGNS: [&str; 11] = ["{", "}", "(", ")", ":", ",", ".", "=", ";", "+", "-"];
const LONGEST_WORD: usize = 10;
const A_NAME: &str = "a";
const DIGITS: &str = "1";

/// What an expression can begin with.
const BEGINNINGS: [&str; 10] = ["null", "this", A_NAME, DIGITS, "-", "let", "new", "(", "finish", "lock"];

pub fn is_too_long(text: &[u8]) -> bool {
    text.len() > TEXT_MOST
}

/// The token that begins at a place; at the text's end no byte.
fn token_at(text: &[u8], place: usize) -> Range<usize> {
    tokens(text).into_iter().find(|token| token.start == place).unwrap_or(place..place)
}

/// What is at fault at a place: a token, or an integer with its minus.
pub fn span(text: &[u8], number: u16, place: usize) -> Range<usize> {
    let token = token_at(text, place);
    let digits = tokens(text).into_iter().find(|next| next.start >= token.end);
    match digits {
        Some(digits) if number == ROOM && text.get(place) == Some(&b'-') => place..digits.end,
        _ => token,
    }
}

fn shown(text: &[u8], span: Range<usize>) -> String {
    String::from_utf8_lossy(text.get(span).unwrap_or(b"")).into_owned()
}

pub fn sentence(text: &[u8], number: u16, place: usize) -> &'static str {
    match number {
        GRAMMAR if place >= text.len() => "the text ends too soon",
        GRAMMAR => "the token does not fit what stands before it",
        DECLARATION if declares(text, place) => "a type's name is declared again",
        DECLARATION => "a type's name is declared nowhere",
        _ if is_too_long(text) => "the text is above 65,536 bytes",
        _ if out_of_range(text, place) => "an integer is outside -2,147,483,648 to 2,147,483,647",
        _ => "the text has too much for one file",
    }
}

pub fn reason(text: &[u8], number: u16, place: usize) -> Option<String> {
    match number {
        GRAMMAR => hint(text, place).map(str::to_string).or_else(|| fitting(text, place)),
        DECLARATION if declares(text, place) => earlier(text, place),
        DECLARATION => Some(likely(text, place)),
        _ if is_too_long(text) || out_of_range(text, place) => None,
        _ => too_many(text, place),
    }
}

/// The names that stand in their declarations.
fn declared(text: &[u8]) -> impl Iterator<Item = Range<usize>> + '_ {
    let tokens = tokens(text);
    let behind = tokens.clone().into_iter().skip(1);
    let pairs = tokens.into_iter().zip(behind);
    pairs.filter(|(word, _)| matches!(&text[word.clone()], b"interface" | b"class")).map(|(_, name)| name)
}

/// Whether the name at a place stands in its declaration.
fn declares(text: &[u8], place: usize) -> bool {
    declared(text).any(|name| name.start == place)
}

/// Whether an integer at a place is outside the range. The place may be an integer's for another reason: that it is one node too many.
fn out_of_range(text: &[u8], place: usize) -> bool {
    let minus = text.get(place) == Some(&b'-');
    let integer = shown(text, span(text, ROOM, place));
    let digits = integer.trim_start_matches(|byte: char| !byte.is_ascii_digit());
    let most = if minus { 2_147_483_648 } else { 2_147_483_647 };
    text.get(place).is_some_and(|byte| byte.is_ascii_digit() || minus)
        && digits.parse::<u64>().map_or(true, |number| number > most)
}

/// What is meant most likely, where a mistake is a usual one.
fn hint(text: &[u8], place: usize) -> Option<&'static str> {
    let before = tokens(text.get(..place)?);
    let last = |back: usize| before.iter().nth_back(back).map_or(&b""[..], |token| &text[token.clone()]);
    let rest = text.get(place..)?;
    match *rest.first()? {
        0xEF if rest.starts_with(&[0xEF, 0xBB, 0xBF]) => {
            Some("a byte order mark stands here; save the text without it")
        }
        b'/' | b'#' => Some("there are no comments"),
        byte if byte >= 128 => Some("this byte is no ASCII; names are letters A to Z and a to z, digits and _"),
        byte if byte.is_ascii_digit() && last(0) == b"+" => {
            Some("a sum has two variables; give the number a name: let one = 1 in x + one")
        }
        b')' if last(0) == b"(" && last(2) == b"." => {
            Some("a call has one argument; where the parameter is of type Unit it is null")
        }
        b'=' if is_name(last(0)) && last(1) != b"." && last(1) != b"let" => {
            Some("a variable keeps its value; a let binds a new one, and only fields are written")
        }
        _ => None,
    }
}

/// What fits at a place.
fn fitting(text: &[u8], place: usize) -> Option<String> {
    let mut fitting = fitting_tokens(text, place)?;
    let token = shown(text, token_at(text, place));
    let expression = BEGINNINGS.iter().all(|beginning| fitting.contains(beginning));
    let no_name = !expression && fitting.contains(&A_NAME) && WORDS.contains(&token.as_str());
    if expression {
        fitting.retain(|token| !BEGINNINGS.contains(token));
    }
    let mut words: Vec<String> = fitting.iter().map(|token| in_words(token)).collect();
    words.extend(expression.then(|| "an expression".to_string()));
    words.extend(ends(text.get(..place)?).then(|| "the end of the text".to_string()));
    let last = words.pop()?;
    let list = if words.is_empty() { last } else { format!("{} or {last}", words.join(", ")) };
    Some(if no_name { format!("here fits: {list}; '{token}' is never a name") } else { format!("here fits: {list}") })
}

/// Which tokens fit at a place: the engine is asked with each of them behind what stands in front of the place.
fn fitting_tokens(text: &[u8], place: usize) -> Option<Vec<&'static str>> {
    let mut front = text.get(..place)?.to_vec();
    front.push(b' ');
    let length = front.len();
    // A text that is too long is refused for that.
    if length + LONGEST_WORD > TEXT_MOST {
        return None;
    }
    let mut file = vec![0; FILE];
    let mut fits = |token: &str| {
        front.truncate(length);
        front.extend(token.bytes());
        let reply = engine::read(&front, &mut file);
        reply.number != GRAMMAR || reply.place as usize != length
    };
    let candidates = WORDS.iter().chain(&SIGNS).chain(&[A_NAME, DIGITS]);
    Some(candidates.copied().filter(|token| fits(token)).collect())
}

/// Whether a text can end here.
fn ends(text: &[u8]) -> bool {
    engine::read(text, &mut [0; FILE]).number != GRAMMAR
}

fn in_words(token: &str) -> String {
    match token {
        A_NAME => "a name".into(),
        DIGITS => "digits".into(),
        _ => format!("'{token}'"),
    }
}

/// Where a name that is declared again was declared first.
fn earlier(text: &[u8], place: usize) -> Option<String> {
    let name = &text[token_at(text, place)];
    let first = declared(text).find(|first| &text[first.clone()] == name)?;
    let (line, column) = position(text, first.start);
    Some(format!("{} is declared at line {line}, column {column} already", shown(text, first)))
}

/// What is wrong with a type's name: perhaps there is one that differs in capital and small letters only.
fn likely(text: &[u8], place: usize) -> String {
    let name = shown(text, token_at(text, place));
    let types = reading(text).types;
    let same = |known: &&str| known.eq_ignore_ascii_case(&name);
    let known = types.iter().map(String::as_str).chain(["Int"]).find(same);
    match known {
        Some(known) => format!("there is no type {name}; there is {known}"),
        None => format!("no interface and no class has the name {name}"),
    }
}

/// Which records are too many.
fn too_many(text: &[u8], place: usize) -> Option<String> {
    let spans = reading(text).spans;
    SECTIONS.into_iter().find_map(|section| {
        let most = MOST[section as usize];
        let mut starts: Vec<usize> = spans[section as usize].iter().map(|span| span.start).collect();
        // Nodes count in the order of the text, though the start's come first in the file.
        starts.sort_unstable();
        let first = starts.get(most) == Some(&place);
        first.then(|| format!("here begins one more than {}, which are the most", counted(most, section.name())))
    })
}
