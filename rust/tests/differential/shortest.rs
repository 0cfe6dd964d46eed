//! The row with no spare brackets, as the request words it: made from the inside out, and then looked at pair by pair.
use crate::sheet::Sheet;
use crate::tree::{Side, Tree};

/// Bare trees with at most so many infix operators, and no other, are bracketed in all ways.
const FEW_OPERATORS: usize = 4;

/// Of rows up to so many tokens, each pair of brackets is taken out and the tree of what is left is looked at.
const FEW_TOKENS: usize = 15;

impl Sheet {
    /// The row that means the same as a row and has no spare brackets, under an accepted sheet.
    pub fn shortest_row(&self, row: &[u8]) -> Vec<u8> {
        let bare = self.tree_of(row).bare();
        let tree = self.with_brackets(&bare);
        assert_eq!(tree.bare(), bare, "the model's shortest row means something else");
        assert_eq!(self.conflicts(&tree), 0, "the model's shortest row shows a conflict");
        let answer = tree.row();
        for less in tree.with_one_pair_less() {
            assert!(self.conflicts(&less) > 0, "the model's shortest row {answer:02x?} has a spare pair of brackets");
            if answer.len() <= FEW_TOKENS {
                assert_ne!(self.tree_of(&less.row()).bare(), bare, "{answer:02x?} has a spare pair of brackets");
            }
        }
        match bare.infix_operators() {
            Some(count) if count <= FEW_OPERATORS => assert_eq!(vec![answer.clone()], self.shortest_rows(&bare)),
            _ => (),
        }
        answer
    }

    /// An operand is bracketed exactly where it, with the brackets already inside it, shows a conflict with the operator above.
    fn with_brackets(&self, bare: &Tree) -> Tree {
        let bracketed = |tree: Tree, shown: bool| Box::new(if shown { Tree::Bracket(Box::new(tree)) } else { tree });
        match bare {
            Tree::Reading(_) => bare.clone(),
            Tree::Bracket(_) => panic!("a bare tree has no brackets"),
            Tree::Prefix(operator, only) => {
                let only = self.with_brackets(only);
                let shown = only.seen_as_last().any(|below| self.excluded(Side::Right, *operator, below));
                Tree::Prefix(*operator, bracketed(only, shown))
            }
            Tree::Node(operator, left, right) => {
                let (left, right) = (self.with_brackets(left), self.with_brackets(right));
                let on_left = left.seen_as_left().any(|below| self.excluded(Side::Left, *operator, below));
                let on_right = right.seen_as_last().any(|below| self.excluded(Side::Right, *operator, below));
                Tree::Node(*operator, bracketed(left, on_left), bracketed(right, on_right))
            }
        }
    }

    /// The shortest of all rows whose conflict-free tree is this one once bare: the trees that agree with it once bare and have
    /// no conflict are the conflict-free trees of their rows. More than one pair of brackets around a node only makes a row
    /// longer.
    fn shortest_rows(&self, bare: &Tree) -> Vec<Vec<u8>> {
        let free = bare.bracketings().into_iter().filter(|tree| self.conflicts(tree) == 0);
        let mut rows: Vec<Vec<u8>> = free.map(|tree| tree.row()).collect();
        let fewest = rows.iter().map(Vec::len).min().expect("a conflict-free tree");
        rows.retain(|row| row.len() == fewest);
        rows
    }
}

impl Tree {
    /// How many operators it has, where all of them are infix.
    fn infix_operators(&self) -> Option<usize> {
        match self {
            Tree::Reading(_) => Some(0),
            Tree::Bracket(inner) => inner.infix_operators(),
            Tree::Prefix(_, _) => None,
            Tree::Node(_, left, right) => Some(1 + left.infix_operators()? + right.infix_operators()?),
        }
    }

    /// The trees that have one pair of brackets more around each node, or none: all of them. No prefix operator may be in it.
    fn bracketings(&self) -> Vec<Tree> {
        let inside = match self {
            Tree::Node(operator, left, right) => {
                let (lefts, rights) = (left.bracketings(), right.bracketings());
                let node = |left: &Tree, right: &Tree| Tree::Node(*operator, left.clone().into(), right.clone().into());
                lefts.iter().flat_map(|left| rights.iter().map(move |right| node(left, right))).collect()
            }
            _ => vec![self.clone()],
        };
        let outside: Vec<Tree> = inside.iter().map(|tree| Tree::Bracket(tree.clone().into())).collect();
        [inside, outside].concat()
    }

    /// The trees that have one bracket node less, each.
    fn with_one_pair_less(&self) -> Vec<Tree> {
        match self {
            Tree::Reading(_) => Vec::new(),
            Tree::Bracket(inner) => {
                let deeper = inner.with_one_pair_less().into_iter().map(|tree| Tree::Bracket(Box::new(tree)));
                std::iter::once((**inner).clone()).chain(deeper).collect()
            }
            Tree::Prefix(operator, only) => {
                let less = only.with_one_pair_less().into_iter();
                less.map(|less| Tree::Prefix(*operator, Box::new(less))).collect()
            }
            Tree::Node(operator, left, right) => {
                let lefts = left.with_one_pair_less().into_iter();
                let rights = right.with_one_pair_less().into_iter();
                let lefts = lefts.map(|less| Tree::Node(*operator, Box::new(less), right.clone()));
                lefts.chain(rights.map(|less| Tree::Node(*operator, left.clone(), Box::new(less)))).collect()
            }
        }
    }
}
