//! Scripts as text, as one would write a reader in Rust for speed: one pass over the text, which fills the sections and looks names up in hash maps, and one over the sections, which writes the file.
//! Nothing here calls itself: what an expression's closing token goes on with is kept in a list.

mod names;
mod parser;
mod tokens;

use parser::Reader;
use second::script::{offsets, LONGEST};
use second::text::{ReadReply, LONGEST_TEXT};

const NO_GRAMMAR: u16 = 34;
const NO_DECLARATION: u16 = 35;
const NO_ROOM: u16 = 36;

/// The same replies and bytes as the library's.
pub fn read(text: &[u8], file: &mut [u8]) -> ReadReply {
    let refusal = |number, place| ReadReply { number, length: 0, place };
    if text.len() > LONGEST_TEXT || file.len() != LONGEST {
        return refusal(NO_ROOM, 0);
    }
    let mut reader = Reader::new(text);
    if reader.program().is_err() {
        return refusal(NO_GRAMMAR, reader.place());
    }
    if let Some(place) = reader.types.fault() {
        return refusal(NO_DECLARATION, place);
    }
    if let Some(place) = reader.too_much {
        return refusal(NO_ROOM, place);
    }
    ReadReply { number: 0, length: write(&reader, file), place: 0 }
}

/// The file, whose length it answers, and zeros behind it.
fn write(reader: &Reader, file: &mut [u8]) -> u16 {
    let types = &reader.types;
    let int = types.int();
    let ty = |word: u16| types.number(word, int);
    let (nodes, bodies) = (reader.nodes.len() as u16, reader.bodies);
    let node = |at: u16| if at < bodies { at + (nodes - bodies) } else { at - bodies };
    let counts = [
        reader.interfaces.len(),
        reader.signatures.len(),
        reader.classes.len(),
        reader.fields.len(),
        reader.methods.len(),
        reader.nodes.len(),
    ];
    let mut out = Out { file, at: 0 };
    for (offset, count) in offsets(&counts).into_iter().zip(counts) {
        out.words([offset as u16, count as u16]);
    }
    for &[form, one, other] in &reader.interfaces {
        out.words(if form == 1 { [1, ty(one), ty(other)] } else { [0, one, 0] });
    }
    reader.signatures.iter().for_each(|&[name, from, to]| out.words([name, ty(from), ty(to)]));
    reader.classes.iter().for_each(|&[interface, fields, methods]| out.words([ty(interface), fields, methods]));
    reader.fields.iter().for_each(|&[name, of]| out.words([name, ty(of)]));
    reader.methods.iter().for_each(|&[name, from, to, body]| out.words([name, ty(from), ty(to), node(body)]));
    let (body_nodes, start_nodes) = reader.nodes.split_at(bodies as usize);
    for &[kind, a, b, c] in start_nodes.iter().chain(body_nodes) {
        out.words(match kind {
            3 | 4 => [kind, a, b, node(c)],
            5 => [kind, a, node(b), node(c)],
            6 => [kind, ty(a), 0, 0],
            7 => [kind, ty(a), node(b), 0],
            8 => [kind, node(a), node(b), node(c)],
            9 => [kind, a, node(b), 0],
            _ => [kind, a, b, c],
        });
    }
    let length = out.at;
    file[length..].fill(0);
    length as u16
}

struct Out<'f> {
    file: &'f mut [u8],
    at: usize,
}

impl Out<'_> {
    fn words<const W: usize>(&mut self, words: [u16; W]) {
        let record = &mut self.file[self.at..self.at + 2 * W];
        for (bytes, word) in record.chunks_exact_mut(2).zip(words) {
            bytes.copy_from_slice(&word.to_le_bytes());
        }
        self.at += 2 * W;
    }
}
