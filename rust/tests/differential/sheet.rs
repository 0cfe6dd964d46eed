//! A sheet's patterns, its verdict by looking at rows, and a row's conflict-free tree.
use crate::expression::{Expression, Piece};
use crate::tree::{is_of_kind, Side, Tree, INFIX, PREFIX};

/// Rows with up to so many operators decide whether a sheet is dead or double; `theory.rs` holds this against longer rows.
pub const ENOUGH_OPERATORS: usize = 3;

/// Rows with at most so many trees are done by looking at all of them.
const FEW_TREES: usize = 150;

/// The kinds of the operators, and which patterns are excluded: L(a,b) and R(a,b). For an infix a and a prefix b, L(a,b) is b
/// anywhere on the right edge of a's left operand; for a prefix a, R(a,b) is b on top of its only operand.
#[derive(Clone, PartialEq)]
pub struct Sheet {
    pub kinds: Vec<u8>,
    left: [[bool; 32]; 32],
    right: [[bool; 32]; 32],
}

impl Sheet {
    /// Left and right count as written, priority wherever its rules lead. Kinds and rules must be in order.
    pub fn of_rules(kinds: &[u8], rules: &[u8]) -> Sheet {
        let mut sheet = Sheet { kinds: kinds.to_vec(), left: [[false; 32]; 32], right: [[false; 32]; 32] };
        for rule in rules.chunks(3) {
            let (kind, a, b) = (rule[0], usize::from(rule[1]), usize::from(rule[2]));
            sheet.left[a][b] |= kind == 3;
            sheet.right[a][b] |= kind == 2;
        }
        for a in 0..sheet.n() {
            for c in led_to(rules, a) {
                sheet.left[usize::from(a)][usize::from(c)] = true;
                sheet.right[usize::from(a)][usize::from(c)] = true;
            }
        }
        sheet
    }

    /// How many operators it has.
    pub fn n(&self) -> u8 {
        self.kinds.len() as u8
    }

    pub fn excluded(&self, side: Side, a: u8, b: u8) -> bool {
        match side {
            Side::Left => self.left[usize::from(a)][usize::from(b)],
            Side::Right => self.right[usize::from(a)][usize::from(b)],
        }
    }

    /// The tree of a record over its operators, where the bytes are exactly one.
    pub fn tree_of_record(&self, record: &[u8]) -> Option<Tree> {
        Tree::of_record(record, &self.kinds)
    }

    pub fn conflicts(&self, tree: &Tree) -> usize {
        tree.conflicts(&|side, a, b| self.excluded(side, a, b))
    }

    /// 4 where some row has no conflict-free tree, else 5 where some row has two or more, else 0. The rows that decide have a
    /// prefix operator nowhere but at their beginning.
    pub fn verdict(&self) -> u8 {
        self.verdict_of(ENOUGH_OPERATORS, |operators| {
            operators[1..].iter().all(|&operator| is_of_kind(&self.kinds, operator, INFIX))
        })
    }

    /// The same, looking at all rows without brackets that have up to `most` operators.
    pub fn verdict_upto(&self, most: usize) -> u8 {
        self.verdict_of(most, |_| true)
    }

    /// The same, looking at those of them whose operators are of interest.
    fn verdict_of(&self, most: usize, of_interest: impl Fn(&[u8]) -> bool) -> u8 {
        let mut double = false;
        for count in 1..=most {
            let shapes: Vec<Vec<Tree>> = (0..1 << count).map(|prefixes| shapes(count, prefixes)).collect();
            for operators in lists(self.n(), count).filter(|operators| of_interest(operators)) {
                let name = |position: u8| operators[usize::from(position)];
                let excluded = |side, a, b| self.excluded(side, name(a), name(b));
                let is_prefix = |at: usize| usize::from(is_of_kind(&self.kinds, operators[at], PREFIX));
                let prefixes: usize = (0..count).map(|at| is_prefix(at) << at).sum();
                match shapes[prefixes].iter().filter(|shape| shape.conflicts(&excluded) == 0).count() {
                    0 => return 4,
                    1 => (),
                    _ => double = true,
                }
            }
        }
        if double {
            5
        } else {
            0
        }
    }

    /// The conflict-free tree of a row over the operators, under an accepted sheet.
    pub fn tree_of(&self, row: &[u8]) -> Tree {
        let expression = Expression::of_row(row, &self.kinds).expect("a row");
        let tree = if expression.tree_count(FEW_TREES) <= FEW_TREES {
            let mut trees = expression.all_trees();
            trees.retain(|tree| self.conflicts(tree) == 0);
            assert_eq!(trees.len(), 1, "an accepted sheet gives the row {row:02x?} one conflict-free tree");
            trees.remove(0)
        } else {
            self.split(&expression.pieces)
        };
        assert_eq!(tree.row(), row, "the model's tree has another row");
        assert_eq!(self.conflicts(&tree), 0, "the model's tree shows a conflict");
        tree
    }

    /// The tree of some pieces: at the top stands the last infix operator that may have all operators before it in its left
    /// operand; where there is none, the prefix operator at the beginning. What it gives is checked above, so this need not be
    /// believed.
    fn split(&self, pieces: &[Piece]) -> Tree {
        let takes_all_before = |at: usize, top: u8| {
            let before = pieces[..at].iter().filter_map(Piece::operator);
            !before.into_iter().any(|operator| self.excluded(Side::Left, top, operator))
        };
        let top = pieces.iter().enumerate().rev().find_map(|(at, piece)| match piece {
            Piece::Infix(top) if takes_all_before(at, *top) => Some((at, *top)),
            _ => None,
        });
        match (top, pieces) {
            (Some((at, top)), _) => {
                Tree::Node(top, Box::new(self.split(&pieces[..at])), Box::new(self.split(&pieces[at + 1..])))
            }
            (None, [Piece::Prefix(operator), rest @ ..]) => Tree::Prefix(*operator, Box::new(self.split(rest))),
            (None, [Piece::Reading(reading)]) => Tree::Reading(*reading),
            (None, [Piece::Bracketed(inner)]) => Tree::Bracket(Box::new(self.split(&inner.pieces))),
            _ => panic!("a top operator"),
        }
    }
}

/// The operators to which one or more priority rules lead from a.
fn led_to(rules: &[u8], a: u8) -> Vec<u8> {
    let mut found = Vec::new();
    let mut todo = vec![a];
    while let Some(from) = todo.pop() {
        for rule in rules.chunks(3) {
            if rule[0] == 1 && rule[1] == from && !found.contains(&rule[2]) {
                found.push(rule[2]);
                todo.push(rule[2]);
            }
        }
    }
    found
}

/// All trees of the row of `count` operators; the operator at position i is called i, and is a prefix one where bit i is set.
/// An infix one comes after a reading, a prefix one directly, and a reading ends the row.
fn shapes(count: usize, prefixes: usize) -> Vec<Tree> {
    let mut pieces = Vec::new();
    for at in 0..count {
        if prefixes >> at & 1 == 1 {
            pieces.push(Piece::Prefix(at as u8));
        } else {
            pieces.extend([Piece::Reading(0x80), Piece::Infix(at as u8)]);
        }
    }
    pieces.push(Piece::Reading(0x80));
    Expression { pieces }.all_trees()
}

/// All lists of `count` operators below n.
pub fn lists(n: u8, count: usize) -> impl Iterator<Item = Vec<u8>> {
    let base = usize::from(n);
    (0..base.pow(count as u32)).map(move |code| {
        let digit = |position: usize| (code / base.pow(position as u32) % base) as u8;
        (0..count).map(digit).collect()
    })
}
