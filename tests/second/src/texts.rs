//! Texts to read, for comparing two readers: derived and printed ones, damaged ones, and those that pass a limit or come near to it.

use crate::counters::counters;
use crate::derive::{derive, derive_deep, Odds, Shape};
use crate::generate::{well_typed, Rng};
use crate::print;
use crate::script::{Script, LIMITS, LONGEST};
use crate::spelling::{any_token, join, Blanks};
use crate::text::tokens::{tokens, Sort, Token};
use crate::text::LONGEST_TEXT;
use crate::text_damage::{any_byte, damaged, Damage};

/// Figure 10, typed with Int and without its notes.
pub const FIGURE_TEN: &[u8] = include_bytes!("../../../samples/figure10.oolong");

/// How a text came to be.
#[derive(Clone, Copy, Debug, PartialEq, Eq, PartialOrd, Ord)]
pub enum Kind {
    /// A random derivation of the grammar.
    Derived,
    /// An accepted script, printed.
    Printed,
    Damaged(Damage),
    /// Expressions nested in each other, up to the length limit; sometimes not all of them are closed.
    Deep,
    /// As many records as a section may have, or more.
    Large,
    /// As long as a text may be, or a little longer or shorter.
    Long,
    /// Types that are declared nowhere or again.
    Declarations,
    /// Integers around the ends of the range.
    Integers,
    /// A derivation but for a token or two that are of the wrong sort.
    Misfit,
    /// Any tokens, or any bytes.
    Noise,
    /// A derived text, and a buffer for the file that is too long or too short.
    Buffer,
}

impl Kind {
    /// All kinds, each as often as it is made.
    const MADE: [Kind; 14] = [
        Kind::Derived,
        Kind::Derived,
        Kind::Derived,
        Kind::Printed,
        Kind::Deep,
        Kind::Large,
        Kind::Long,
        Kind::Declarations,
        Kind::Integers,
        Kind::Integers,
        Kind::Misfit,
        Kind::Misfit,
        Kind::Noise,
        Kind::Buffer,
    ];

    pub fn all() -> Vec<Kind> {
        let mut all: Vec<Kind> = Kind::MADE.into_iter().chain(Damage::ALL.map(Kind::Damaged)).collect();
        all.dedup();
        all
    }
}

/// What is lent to the reader: a text, and how long the buffer for the file is.
pub struct Text {
    pub bytes: Vec<u8>,
    pub room: usize,
    pub kind: Kind,
}

/// Any text worth trying.
pub fn any_text(rng: &mut Rng) -> Text {
    let kind = match rng.below(2 * Kind::MADE.len()) {
        index if index < Kind::MADE.len() => Kind::MADE[index],
        _ => Kind::Damaged(Damage::ALL[rng.below(Damage::ALL.len())]),
    };
    let room = match kind {
        Kind::Buffer => [0, 1, LONGEST - 1, LONGEST + 1, 2 * LONGEST][rng.below(5)],
        _ => LONGEST,
    };
    Text { bytes: made(kind, rng), room, kind }
}

fn made(kind: Kind, rng: &mut Rng) -> Vec<u8> {
    match kind {
        Kind::Derived | Kind::Buffer => spaced(&derived(Odds::default(), rng), rng),
        Kind::Printed => print::text(&accepted(rng), rng),
        Kind::Damaged(damage) => damaged(whole(rng), damage, rng),
        Kind::Deep => deep(rng),
        Kind::Large => large(rng),
        Kind::Long => long(rng),
        Kind::Declarations => declarations(rng),
        Kind::Integers => {
            let odds = Odds { out_of_range: [1, 4, 20, 0][rng.below(4)], ..Odds::default() };
            spaced(&derived(odds, rng), rng)
        }
        Kind::Misfit => {
            let odds = Odds { misfit: [10, 30, 100][rng.below(3)], ..Odds::default() };
            spaced(&derived(odds, rng), rng)
        }
        Kind::Noise => noise(rng),
    }
}

fn spaced(tokens: &[String], rng: &mut Rng) -> Vec<u8> {
    let blanks = Blanks::random(rng);
    join(tokens, blanks, rng)
}

/// A script that Check accepts.
pub fn accepted(rng: &mut Rng) -> Script {
    let file = if rng.one_in(4) { counters(rng) } else { well_typed(rng) };
    let Ok(script) = Script::read(&file) else { unreachable!("accepted scripts can be read") };
    script
}

/// A derivation of a size that is far from all limits.
fn derived(odds: Odds, rng: &mut Rng) -> Vec<String> {
    let most = [1, 3, 8][rng.below(3)];
    let mut upto = |most: usize| rng.below(most + 1);
    let classes = upto(most);
    let interfaces = upto(most);
    let signatures = if interfaces > 0 { upto(2 * most) } else { 0 };
    let methods = if classes > 0 { upto(2 * most) } else { 0 };
    let fields = if classes > 0 { upto(most) } else { 0 };
    let (body_nodes, start_nodes) = (methods * (1 + upto(6)), 1 + upto(8 * most));
    let shape = Shape { interfaces, signatures, classes, fields, methods, body_nodes, start_nodes };
    derive(shape, odds, rng)
}

/// A printed script, Figure 10 or a derivation.
fn whole(rng: &mut Rng) -> Vec<String> {
    match rng.below(4) {
        0 => print::tokens(&accepted(rng), rng),
        1 => split(FIGURE_TEN),
        _ => derived(Odds::default(), rng),
    }
}

fn split(text: &[u8]) -> Vec<String> {
    let (tokens, spelling) = (tokens(text), |token: &Token| String::from_utf8_lossy(token.spelling).into_owned());
    tokens.iter().filter(|token| token.sort != Sort::End).map(spelling).collect()
}

fn deep(rng: &mut Rng) -> Vec<u8> {
    if rng.one_in(25) {
        return filled(rng);
    }
    let length = [300, 1_000, 3_000, 10_000][rng.below(4)];
    let length = if rng.one_in(20) { LONGEST_TEXT - 1_000 } else { length };
    let odds =
        Odds { undeclared: [0, 0, 1_000][rng.below(3)], out_of_range: [0, 0, 100][rng.below(3)], ..Odds::default() };
    let all_closed = !rng.one_in(4);
    let tokens = derive_deep(length, all_closed, odds, rng);
    join(&tokens, if rng.one_in(4) { Blanks::One } else { Blanks::Fewest }, rng)
}

/// One expression in itself, as often as a text has room for; all are closed, none is, or one is closed wrongly or not at all.
fn filled(rng: &mut Rng) -> Vec<u8> {
    const AROUND: [[&str; 2]; 9] = [
        ["x.m(", ")"],
        ["(a)", ""],
        ["(Int)", ""],
        ["let x=", "in 0"],
        ["let x=0in ", ""],
        ["lock(x)in ", ""],
        ["x.f=", ""],
        ["finish{async{", "}async{0}};0"],
        ["finish{async{0}async{", "}};0"],
    ];
    let [open, close] = AROUND[rng.below(AROUND.len())];
    if rng.one_in(4) {
        return open.repeat(LONGEST_TEXT / open.len()).into_bytes();
    }
    let times = (LONGEST_TEXT - 1) / (open.len() + close.len());
    let mut ends = vec![close; times];
    match rng.below(3) {
        0 => ends[rng.below(times)] = [")", "}", "in 0", ""][rng.below(4)],
        1 => ends[times - 1] = [")", "}", "in 0", ""][rng.below(4)],
        _ => {}
    }
    [&open.repeat(times), "0", &ends.concat()].concat().into_bytes()
}

/// Each section has a few records, as many as it may, or too many; sometimes there are other faults.
fn large(rng: &mut Rng) -> Vec<u8> {
    let mut count = |section: usize| {
        let limit = LIMITS[section];
        [rng.below(8), rng.below(8), limit, limit, limit + 1, limit + 2 + rng.below(40)][rng.below(6)]
    };
    let (interfaces, classes) = (count(0).max(1), count(2).max(1));
    let (signatures, fields, methods, nodes) = (count(1), count(3), count(4), count(5));
    let in_start = if rng.one_in(3) { 1 } else { 1 + rng.below(nodes.max(1)) };
    let body_nodes = if methods > 0 { nodes.saturating_sub(in_start).max(methods) } else { 0 };
    let start_nodes = nodes.saturating_sub(body_nodes).max(1);
    let odds = Odds {
        undeclared: [0, 0, 0, 2_000][rng.below(4)],
        again: [0, 0, 0, 100][rng.below(4)],
        out_of_range: [0, 0, 300][rng.below(3)],
        misfit: 0,
    };
    let tokens = derive(Shape { interfaces, signatures, classes, fields, methods, body_nodes, start_nodes }, odds, rng);
    join(&tokens, Blanks::Fewest, rng)
}

/// A derived text that blanks, a long name or many digits bring to the longest length or near to it; the tokens may end there too soon.
fn long(rng: &mut Rng) -> Vec<u8> {
    let length = [LONGEST_TEXT - 1, LONGEST_TEXT, LONGEST_TEXT, LONGEST_TEXT + 1, LONGEST_TEXT + 1_000][rng.below(5)];
    let mut tokens = derived(Odds::default(), rng);
    if rng.one_in(4) {
        tokens.truncate(rng.below(tokens.len() + 1));
    }
    let text = join(&tokens, Blanks::Fewest, rng);
    let filling = [b' ', b'\n', b'a', b'0', b'7', b'_', b'(', 0][rng.below(8)];
    let at = [0, text.len(), rng.below(text.len() + 1)][rng.below(3)];
    let (before, behind) = text.split_at(at);
    let missing = length.saturating_sub(text.len());
    [before, &vec![filling; missing], behind].concat()
}

fn declarations(rng: &mut Rng) -> Vec<u8> {
    let undeclared = [0, 1, 10, 100][rng.below(4)];
    let odds = Odds { undeclared, again: [0, 2, 10][rng.below(3)], out_of_range: 50, misfit: 0 };
    if !rng.one_in(30) {
        return spaced(&derived(odds, rng), rng);
    }
    // Far more than there may be, and the first fault far behind.
    let odds = Odds { undeclared: odds.undeclared * 1_000, again: odds.again * 1_000, ..odds };
    let shape = Shape { interfaces: rng.below(2_500), classes: rng.below(500), start_nodes: 5, ..Shape::default() };
    join(&derive(shape, odds, rng), Blanks::Fewest, rng)
}

fn noise(rng: &mut Rng) -> Vec<u8> {
    if rng.one_in(3) {
        return (0..rng.below(12)).map(|_| any_byte(rng)).collect();
    }
    let tokens: Vec<String> = (0..6).map(|_| any_token(rng)).collect();
    let kept = rng.below(tokens.len() + 1);
    spaced(&tokens[..kept], rng)
}
