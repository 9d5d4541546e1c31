//! Expressions, as the nodes of a script spell them.

use std::ops::Range;

/// A node of a known kind, with its words named. Parts are node numbers.
#[derive(Clone, Copy, Debug)]
pub enum Expr {
    Null,
    Variable { variable: u16 },
    Read { target: u16, field: u16 },
    Write { target: u16, field: u16, value: u16 },
    Call { target: u16, method: u16, argument: u16 },
    Let { variable: u16, bound: u16, body: u16 },
    New { class: u16 },
    Cast { ty: u16, operand: u16 },
    Fork { left: u16, right: u16, last: u16 },
    Lock { target: u16, body: u16 },
    Number { number: i32 },
    Sum { one: u16, other: u16 },
}

pub const NEW: u16 = 6;
pub const CAST: u16 = 7;
pub const NUMBER: u16 = 10;
pub const SUM: u16 = 11;

/// "A low word, b high word, two's complement".
pub fn number(low: u16, high: u16) -> i32 {
    (u32::from(high) << 16 | u32::from(low)) as i32
}

/// The low and the high word of a number.
pub fn number_words(number: i32) -> [u16; 2] {
    [number as u16, (number >> 16) as u16]
}

impl Expr {
    /// Question 7's own-word demands: "a known kind, unused words 0, a let variable of 2 or more".
    pub fn decode(node: [u16; 4]) -> Option<Expr> {
        Some(match node {
            [0, 0, 0, 0] => Expr::Null,
            [1, variable, 0, 0] => Expr::Variable { variable },
            [2, target, field, 0] => Expr::Read { target, field },
            [3, target, field, value] => Expr::Write { target, field, value },
            [4, target, method, argument] => Expr::Call { target, method, argument },
            [5, variable @ 2..=u16::MAX, bound, body] => Expr::Let { variable, bound, body },
            [NEW, class, 0, 0] => Expr::New { class },
            [CAST, ty, operand, 0] => Expr::Cast { ty, operand },
            [8, left, right, last] => Expr::Fork { left, right, last },
            [9, target, body, 0] => Expr::Lock { target, body },
            [NUMBER, low, high, 0] => Expr::Number { number: number(low, high) },
            [SUM, one, other, 0] => Expr::Sum { one, other },
            _ => return None,
        })
    }

    /// The variables that the node names, to use them or to bind one; only a sum names two.
    pub fn variables_mut(&mut self) -> impl Iterator<Item = &mut u16> {
        let named = match self {
            Expr::Variable { variable } | Expr::Let { variable, .. } => [Some(variable), None],
            Expr::Read { target, .. }
            | Expr::Write { target, .. }
            | Expr::Call { target, .. }
            | Expr::Lock { target, .. } => [Some(target), None],
            Expr::Sum { one, other } => [Some(one), Some(other)],
            Expr::Null | Expr::New { .. } | Expr::Cast { .. } | Expr::Fork { .. } | Expr::Number { .. } => [None, None],
        };
        named.into_iter().flatten()
    }
}

/// Which words of a node of this kind are parts, in running order; a node of unknown kind has none.
fn part_words(kind: u16) -> Range<usize> {
    match kind {
        3 | 4 => 3..4,
        5 => 2..4,
        CAST | 9 => 2..3,
        8 => 1..4,
        _ => 0..0,
    }
}

/// The part words of a node, in order or not.
pub fn parts(node: &[u16; 4]) -> &[u16] {
    &node[part_words(node[0])]
}

pub fn parts_mut(node: &mut [u16; 4]) -> &mut [u16] {
    let words = part_words(node[0]);
    &mut node[words]
}
