//! Trees as boxes: record, row, conflict count, each as documents 01 and 02 word it.

pub const OPENING: u8 = 0x20;
pub const CLOSING: u8 = 0x21;

/// Kind bytes of a sheet's operators.
pub const INFIX: u8 = 0;
pub const PREFIX: u8 = 1;

#[derive(Clone, Debug, PartialEq)]
pub enum Tree {
    Reading(u8),
    Bracket(Box<Tree>),
    Prefix(u8, Box<Tree>),
    Node(u8, Box<Tree>, Box<Tree>),
}

#[derive(Clone, Copy, Debug, PartialEq)]
pub enum Side {
    Left,
    Right,
}

pub fn is_operator(byte: u8) -> bool {
    byte < 0x20
}

pub fn is_reading(byte: u8) -> bool {
    byte >= 0x80
}

/// Whether the byte is an operator of that kind, by the sheet's kind bytes.
pub fn is_of_kind(kinds: &[u8], byte: u8, kind: u8) -> bool {
    kinds.get(usize::from(byte)) == Some(&kind)
}

impl Tree {
    /// Top first: the operator, its left tree, its right tree; or the operator and its only tree.
    pub fn record(&self) -> Vec<u8> {
        match self {
            Tree::Reading(reading) => vec![*reading],
            Tree::Bracket(inner) => [vec![OPENING], inner.record()].concat(),
            Tree::Prefix(operator, only) => [vec![*operator], only.record()].concat(),
            Tree::Node(operator, left, right) => [vec![*operator], left.record(), right.record()].concat(),
        }
    }

    /// The yield: left yield, operator, right yield; or the operator, then the yield of its only tree.
    pub fn row(&self) -> Vec<u8> {
        match self {
            Tree::Reading(reading) => vec![*reading],
            Tree::Bracket(inner) => [vec![OPENING], inner.row(), vec![CLOSING]].concat(),
            Tree::Prefix(operator, only) => [vec![*operator], only.row()].concat(),
            Tree::Node(operator, left, right) => [left.row(), vec![*operator], right.row()].concat(),
        }
    }

    /// The tree of a record, where the bytes are exactly one tree of operators of these kinds.
    pub fn of_record(record: &[u8], kinds: &[u8]) -> Option<Tree> {
        match read_tree(record, kinds)? {
            (tree, []) => Some(tree),
            _ => None,
        }
    }

    /// The infix operator at the top. A bracket node is never the operator inside it.
    pub fn infix_top(&self) -> Option<u8> {
        match self {
            Tree::Node(operator, _, _) => Some(*operator),
            _ => None,
        }
    }

    /// The right edge: the top node, its rightmost operand, and on down to the first bracket or reading.
    pub fn right_edge(&self) -> impl Iterator<Item = &Tree> {
        std::iter::successors(Some(self), |node| match node {
            Tree::Reading(_) | Tree::Bracket(_) => None,
            Tree::Prefix(_, last) | Tree::Node(_, _, last) => Some(last),
        })
    }

    /// The operators that an infix node looks at in this tree, its left operand: an infix one at the top, and each prefix
    /// one on the right edge.
    pub fn seen_as_left(&self) -> impl Iterator<Item = u8> + '_ {
        let prefixes = self.right_edge().filter_map(|node| match node {
            Tree::Prefix(operator, _) => Some(*operator),
            _ => None,
        });
        self.infix_top().into_iter().chain(prefixes)
    }

    /// The operators that a node looks at in this tree, its right or its only operand: an infix one at the top.
    pub fn seen_as_last(&self) -> impl Iterator<Item = u8> {
        self.infix_top().into_iter()
    }

    /// How many pairs of a node and an operator that it looks at show an excluded pattern.
    pub fn conflicts(&self, excluded: &impl Fn(Side, u8, u8) -> bool) -> usize {
        match self {
            Tree::Reading(_) => 0,
            Tree::Bracket(inner) => inner.conflicts(excluded),
            Tree::Prefix(operator, only) => {
                let shown = only.seen_as_last().filter(|&below| excluded(Side::Right, *operator, below)).count();
                shown + only.conflicts(excluded)
            }
            Tree::Node(operator, left, right) => {
                let on_left = left.seen_as_left().filter(|&below| excluded(Side::Left, *operator, below)).count();
                let on_right = right.seen_as_last().filter(|&below| excluded(Side::Right, *operator, below)).count();
                on_left + on_right + left.conflicts(excluded) + right.conflicts(excluded)
            }
        }
    }

    /// The tree without its bracket nodes.
    pub fn bare(&self) -> Tree {
        match self {
            Tree::Reading(reading) => Tree::Reading(*reading),
            Tree::Bracket(inner) => inner.bare(),
            Tree::Prefix(operator, only) => Tree::Prefix(*operator, Box::new(only.bare())),
            Tree::Node(operator, left, right) => Tree::Node(*operator, Box::new(left.bare()), Box::new(right.bare())),
        }
    }

    /// The operand of the top node; a node's only tree counts as its left.
    pub fn operand(&self, side: Side) -> Option<&Tree> {
        match (self, side) {
            (Tree::Node(_, left, _), Side::Left) => Some(left),
            (Tree::Node(_, _, right), Side::Right) => Some(right),
            (Tree::Prefix(_, only), Side::Left) => Some(only),
            (Tree::Bracket(inner), Side::Left) => Some(inner),
            _ => None,
        }
    }
}

/// One tree from the front of the bytes, and what is left.
fn read_tree<'a>(bytes: &'a [u8], kinds: &[u8]) -> Option<(Tree, &'a [u8])> {
    let (&first, rest) = bytes.split_first()?;
    if is_reading(first) {
        Some((Tree::Reading(first), rest))
    } else if first == OPENING {
        let (inner, rest) = read_tree(rest, kinds)?;
        Some((Tree::Bracket(Box::new(inner)), rest))
    } else if is_of_kind(kinds, first, PREFIX) {
        let (only, rest) = read_tree(rest, kinds)?;
        Some((Tree::Prefix(first, Box::new(only)), rest))
    } else if is_of_kind(kinds, first, INFIX) {
        let (left, rest) = read_tree(rest, kinds)?;
        let (right, rest) = read_tree(rest, kinds)?;
        Some((Tree::Node(first, Box::new(left), Box::new(right)), rest))
    } else {
        None
    }
}
