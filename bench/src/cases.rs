//! What the calls are timed on.
use crate::inputs::{self, Make};
use crate::random::Random;
use crate::tree::{Tree, INFIX, PREFIX};

pub const TOKENS: [usize; 3] = [15, 63, 255];

/// So many inputs of a kind are gone through by turns.
const INPUTS: usize = 24;

/// Those of a prefixed shape have prefix operators too.
#[derive(Clone, Copy, PartialEq)]
pub enum Shape {
    Left,
    Right,
    Random,
    Prefixed,
}

pub const SHAPES: [(&str, Shape); 3] = [("left", Shape::Left), ("right", Shape::Right), ("random", Shape::Random)];

/// Kinds of the 32 operators: all infix, or the last of every four prefix.
pub fn kinds(prefixed: bool) -> Vec<u8> {
    (0..32).map(|operator| if prefixed && operator % 4 == 3 { PREFIX } else { INFIX }).collect()
}

/// The sheet of 32 operators of these kinds and `rules(groups)`, as a staging has it after n.
pub fn sheet(prefixed: bool, groups: u8) -> Vec<u8> {
    [kinds(prefixed), rules(groups)].concat()
}

/// Rules over 32 operators in groups of equal size, one over the next, left and right by turns: 8 groups give 576 rules, 1
/// gives 1,024.
fn rules(groups: u8) -> Vec<u8> {
    let group = |operator: u8| operator / (32 / groups);
    let mut rules = Vec::new();
    for a in 0..32 {
        for b in 0..32 {
            match group(a).cmp(&group(b)) {
                std::cmp::Ordering::Less => rules.extend([1, a, b]),
                std::cmp::Ordering::Equal => rules.extend([2 + group(a) % 2, a, b]),
                std::cmp::Ordering::Greater => (),
            }
        }
    }
    rules
}

/// Trees of that shape with any operators; the random ones have brackets too.
fn trees(tokens: usize, shape: Shape) -> Vec<Tree> {
    let mut random = Random::new(11);
    let (lean, brackets) = match shape {
        Shape::Left => (0, 0),
        Shape::Right => (1, 0),
        Shape::Random | Shape::Prefixed => (2, 8),
    };
    let make = Make::of(&kinds(shape == Shape::Prefixed), lean, brackets, 20);
    (0..INPUTS).map(|_| inputs::tree(&mut random, &make, tokens)).collect()
}

/// Meanings of operators of these kinds; those of a group differ.
pub fn meanings(kinds: &[u8]) -> Vec<u8> {
    let meaning = |(operator, &kind): (u8, &u8)| if kind == PREFIX { 10 + operator / 4 % 2 } else { 1 + operator % 9 };
    (0..).zip(kinds).map(meaning).collect()
}

/// Values of all 128 readings.
pub fn readings() -> Vec<i32> {
    inputs::all_readings(&mut Random::new(12))
}

/// The records of trees of that shape.
pub fn records(tokens: usize, shape: Shape) -> Vec<Vec<u8>> {
    trees(tokens, shape).iter().map(Tree::record).collect()
}

/// Rows whose tree under eight groups has that shape: the operators of a comb are from one group.
pub fn rows(tokens: usize, shape: Shape) -> Vec<Vec<u8>> {
    let group = match shape {
        Shape::Left => 0,
        Shape::Right => 4,
        Shape::Random | Shape::Prefixed => return trees(tokens, shape).iter().map(Tree::row).collect(),
    };
    let of_group = |token: u8| if token < 32 { group + token % 4 } else { token };
    let rows = trees(tokens, shape).into_iter().map(|tree| tree.row());
    rows.map(|row| row.into_iter().map(of_group).collect()).collect()
}
