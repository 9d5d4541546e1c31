//! Silent moves in a row, counted by walking down from a node.

use crate::expr::Expr;

/// "The count equals the chain of first-run parts from that node, one for each descent and one for a final null or constant";
/// "the answer is 0 where no such node is".
pub fn moves_from(expressions: &[Expr], node: u32) -> u16 {
    let (mut at, mut moves) = (node as usize, 0);
    while let Some(expression) = expressions.get(at) {
        at = match *expression {
            Expr::Write { value: first, .. }
            | Expr::Call { argument: first, .. }
            | Expr::Let { bound: first, .. }
            | Expr::Cast { operand: first, .. } => first as usize,
            Expr::Null | Expr::Number { .. } => return moves + 1,
            Expr::Variable { .. }
            | Expr::Read { .. }
            | Expr::New { .. }
            | Expr::Fork { .. }
            | Expr::Lock { .. }
            | Expr::Sum { .. } => return moves,
        };
        moves += 1;
    }
    moves
}

/// Check's number, "the largest such count over all nodes of the script", by a walk from each of them.
pub fn most_moves(expressions: &[Expr]) -> u16 {
    (0..expressions.len() as u32).map(|node| moves_from(expressions, node)).max().unwrap_or(0)
}
