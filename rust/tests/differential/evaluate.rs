//! The value of a tree, as the request words it: in wide numbers, node by node, held within the range at each.
use crate::tree::{is_reading, Tree};
use std::collections::BTreeSet;

const LOWEST: i64 = -2_147_483_648;
const HIGHEST: i64 = 2_147_483_647;

/// The value of the tree: 13, 14.
pub fn evaluate(tree: &Tree, meanings: &[u8], readings: &[i32]) -> Result<i32, u8> {
    let atoms: BTreeSet<u8> = tree.record().into_iter().filter(|&byte| is_reading(byte)).collect();
    if !suits(tree, meanings) {
        return Err(13);
    }
    if atoms.iter().any(|&atom| readings.get(position(atom)).is_none()) {
        return Err(14);
    }
    Ok(value(tree, meanings, readings).try_into().expect("a value is within the range"))
}

/// Each operator of the tree has a meaning of its kind: 1 to 9 with two trees, 10 and 11 with one.
fn suits(tree: &Tree, meanings: &[u8]) -> bool {
    let meaning = |operator: &u8| meanings.get(usize::from(*operator));
    match tree {
        Tree::Reading(_) => true,
        Tree::Bracket(inner) => suits(inner, meanings),
        Tree::Prefix(operator, only) => matches!(meaning(operator), Some(10 | 11)) && suits(only, meanings),
        Tree::Node(operator, left, right) => {
            matches!(meaning(operator), Some(1..=9)) && suits(left, meanings) && suits(right, meanings)
        }
    }
}

/// Where the value of a reading stands in the lent list.
fn position(reading: u8) -> usize {
    usize::from(reading) - 0x80
}

fn value(tree: &Tree, meanings: &[u8], readings: &[i32]) -> i64 {
    match tree {
        Tree::Reading(reading) => readings[position(*reading)].into(),
        Tree::Bracket(inner) => value(inner, meanings, readings),
        Tree::Prefix(operator, only) => {
            let a = value(only, meanings, readings);
            match meanings[usize::from(*operator)] {
                10 => i64::from(a == 0),
                11 => (-a).clamp(LOWEST, HIGHEST),
                meaning => unreachable!("{meaning} is no meaning of a prefix operator"),
            }
        }
        Tree::Node(operator, left, right) => {
            let (a, b) = (value(left, meanings, readings), value(right, meanings, readings));
            worked_out(meanings[usize::from(*operator)], a, b)
        }
    }
}

fn worked_out(meaning: u8, a: i64, b: i64) -> i64 {
    match meaning {
        1 => i64::from(a != 0 || b != 0),
        2 => i64::from(a != 0 && b != 0),
        3 => i64::from(a < b),
        4 => i64::from(a <= b),
        5 => i64::from(a == b),
        6 => (a + b).clamp(LOWEST, HIGHEST),
        7 => (a - b).clamp(LOWEST, HIGHEST),
        8 => a.min(b),
        9 => a.max(b),
        _ => unreachable!("{meaning} is no meaning of an infix operator"),
    }
}
