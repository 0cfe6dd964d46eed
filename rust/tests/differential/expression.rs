//! Rows by document 01's grammar with document 02's prefix operators, and all trees of a row.
use crate::tree::{is_of_kind, is_reading, Tree, CLOSING, INFIX, OPENING, PREFIX};

/// Rows of more pieces mostly have more trees than can be looked at.
const MANY_PIECES: usize = 20;

/// A row without what stands in brackets: operands with prefix operators before them, and infix operators between them.
#[derive(Clone, Debug)]
pub struct Expression {
    pub pieces: Vec<Piece>,
}

#[derive(Clone, Debug)]
pub enum Piece {
    Reading(u8),
    Bracketed(Expression),
    Prefix(u8),
    Infix(u8),
}

impl Piece {
    /// The operator, where the piece is one.
    pub fn operator(&self) -> Option<u8> {
        match self {
            Piece::Prefix(operator) | Piece::Infix(operator) => Some(*operator),
            _ => None,
        }
    }
}

impl Expression {
    /// The tokens as one expression, where they are one.
    pub fn of_row(row: &[u8], kinds: &[u8]) -> Option<Expression> {
        match read_expression(row, kinds)? {
            (expression, []) => Some(expression),
            _ => None,
        }
    }

    /// All trees of the row, conflict-free or not.
    pub fn all_trees(&self) -> Vec<Tree> {
        trees(&self.pieces)
    }

    /// How many trees the row has, or a number over the limit where there are more; a row of many pieces is not counted.
    pub fn tree_count(&self, limit: usize) -> usize {
        let pieces = &self.pieces;
        if pieces.len() > MANY_PIECES {
            return limit + 1;
        }
        // counts[first][past]: of the pieces from the first up to one past the last.
        let mut counts = vec![vec![0; pieces.len() + 1]; pieces.len() + 1];
        for first in (0..pieces.len()).rev() {
            for past in first + 1..=pieces.len() {
                let mut count = match &pieces[first] {
                    Piece::Reading(_) => usize::from(past == first + 1),
                    Piece::Bracketed(inner) if past == first + 1 => inner.tree_count(limit),
                    Piece::Prefix(_) => counts[first + 1][past],
                    _ => 0,
                };
                for top in first + 1..past {
                    if let Piece::Infix(_) = pieces[top] {
                        count = (count + counts[first][top] * counts[top + 1][past]).min(limit + 1);
                    }
                }
                counts[first][past] = count;
            }
        }
        counts[0][pieces.len()]
    }
}

/// All trees of some pieces: a piece alone; a prefix operator over all the rest; an infix operator over what stands on both sides.
fn trees(pieces: &[Piece]) -> Vec<Tree> {
    let mut found = match pieces {
        [Piece::Reading(reading)] => vec![Tree::Reading(*reading)],
        [Piece::Bracketed(inner)] => inner.all_trees().into_iter().map(|tree| Tree::Bracket(Box::new(tree))).collect(),
        [Piece::Prefix(operator), rest @ ..] => {
            trees(rest).into_iter().map(|tree| Tree::Prefix(*operator, Box::new(tree))).collect()
        }
        _ => Vec::new(),
    };
    for (top, piece) in pieces.iter().enumerate() {
        if let Piece::Infix(operator) = piece {
            for left in trees(&pieces[..top]) {
                for right in trees(&pieces[top + 1..]) {
                    found.push(Tree::Node(*operator, Box::new(left.clone()), Box::new(right)));
                }
            }
        }
    }
    found
}

/// Operand, then any number of infix operator and operand, from the front of the tokens, as long as can be; and what is left.
fn read_expression<'a>(tokens: &'a [u8], kinds: &[u8]) -> Option<(Expression, &'a [u8])> {
    let (mut pieces, mut rest) = read_operand(tokens, kinds)?;
    while let Some((&operator, after)) = rest.split_first() {
        if !is_of_kind(kinds, operator, INFIX) {
            break;
        }
        let (operand, after) = read_operand(after, kinds)?;
        pieces.push(Piece::Infix(operator));
        pieces.extend(operand);
        rest = after;
    }
    Some((Expression { pieces }, rest))
}

/// A reading; or 20, expression, 21; or a prefix operator and an operand.
fn read_operand<'a>(tokens: &'a [u8], kinds: &[u8]) -> Option<(Vec<Piece>, &'a [u8])> {
    let (&first, rest) = tokens.split_first()?;
    if is_reading(first) {
        return Some((vec![Piece::Reading(first)], rest));
    }
    if is_of_kind(kinds, first, PREFIX) {
        let (operand, rest) = read_operand(rest, kinds)?;
        return Some(([vec![Piece::Prefix(first)], operand].concat(), rest));
    }
    if first != OPENING {
        return None;
    }
    match read_expression(rest, kinds)? {
        (inner, [CLOSING, rest @ ..]) => Some((vec![Piece::Bracketed(inner)], rest)),
        _ => None,
    }
}
