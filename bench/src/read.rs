//! Read, beside the hand-written reader.

use crate::scripts::largest;
use crate::table::{heading_beside, row};
use crate::timing::{race, Times};
use bench::{library_read, reader};
use second::generate::Rng;
use second::print;
use second::script::LONGEST;
use second::spelling::{join, Blanks};
use second::text::LONGEST_TEXT;
use second::texts::FIGURE_TEN;
use std::hint::black_box;

pub fn bench() {
    heading_beside("Read", "hand ns", "bytes", "MB in a second: engine, hand-written");
    for (name, text, half) in cases() {
        let times = read_times(&text);
        let speeds = [times.engine, times.second].map(|time| format!("{:7.1}", 1e3 * text.len() as f64 / time));
        row(name, text.len(), times, half.map(|half| read_times(&half)), &speeds.join(" "));
    }
}

/// Both must give the same reply and leave the same bytes.
fn read_times(text: &[u8]) -> Times {
    let (mut one, mut other) = (vec![1; LONGEST], vec![1; LONGEST]);
    assert_eq!(library_read(text, &mut one), reader::read(text, &mut other));
    assert!(one == other);
    race(|| library_read(black_box(text), &mut one), || reader::read(black_box(text), &mut other))
}

/// Half of the text, where a smaller one is to be compared.
type Case = (&'static str, Vec<u8>, Option<Vec<u8>>);

fn cases() -> Vec<Case> {
    let whole = |of: fn(usize) -> Vec<u8>, size: usize| (of(size), Some(of(size / 2)));
    let case = |name, (text, half)| (name, text, half);
    vec![
        ("Figure 10", FIGURE_TEN.to_vec(), None),
        case("all sections full", whole(full_sections, 16)),
        case("16,384 open calls: 34", whole(open_calls, 16_384)),
        case("13,107 calls: 36", whole(calls, 13_107)),
        case("65,536 bytes of casts: 36", whole(casts, LONGEST_TEXT / 5)),
        case("4,000 declarations: 36", whole(declarations, 4_000)),
        case("2,000 declarations, 7,000 uses: 36", whole(uses, 2_000)),
        case("65,536 blanks: 34", whole(blanks, LONGEST_TEXT)),
    ]
}

fn full_sections(scale: usize) -> Vec<u8> {
    let mut rng = Rng::new(1);
    let tokens = print::tokens(&largest(scale as u16), &mut rng);
    join(&tokens, Blanks::One, &mut rng)
}

fn open_calls(count: usize) -> Vec<u8> {
    b"x.m(".repeat(count)
}

fn calls(count: usize) -> Vec<u8> {
    [b"x.m(".repeat(count), b"x".to_vec(), b")".repeat(count)].concat()
}

fn casts(count: usize) -> Vec<u8> {
    [&b"(Int)".repeat(count)[..], b"x"].concat()
}

fn blanks(count: usize) -> Vec<u8> {
    vec![b' '; count]
}

/// A name of two or three letters.
fn name(number: usize) -> String {
    let letter = |digit: usize| char::from(b'A' + digit as u8);
    let letters = [Some(number % 26), Some(number / 26 % 26), (number / 676).checked_sub(1)];
    letters.into_iter().flatten().map(letter).collect()
}

fn declared(count: usize) -> String {
    (0..count).map(|number| format!("interface {}{{}}", name(number))).collect()
}

fn declarations(count: usize) -> Vec<u8> {
    (declared(count) + "null").into_bytes()
}

/// So many declarations, and more than three times as many casts to the last of them.
fn uses(count: usize) -> Vec<u8> {
    let casts: String = (0..count * 7 / 2).map(|index| format!("({})", name(count - 1 - index % 100))).collect();
    (declared(count) + &casts + "0").into_bytes()
}
