//! Chains of priority: every set of them over four operators, with any number of prefix operators among them.
use crate::both;
use crate::tree::{Side, Tree, INFIX, PREFIX};

const OPERATORS: u8 = 4;

/// The tree of two operators with `below` as an operand of `top`; a prefix operator has one operand.
fn pair(kinds: &[u8], top: u8, side: Side, below: u8) -> Tree {
    let reading = || Box::new(Tree::Reading(0x80));
    let is_prefix = |operator: u8| kinds[usize::from(operator)] == PREFIX;
    let operand = Box::new(match is_prefix(below) {
        false => Tree::Node(below, reading(), reading()),
        true => Tree::Prefix(below, reading()),
    });
    match side {
        _ if is_prefix(top) => Tree::Prefix(top, operand),
        Side::Left => Tree::Node(top, operand, reading()),
        Side::Right => Tree::Node(top, reading(), operand),
    }
}

/// What the staging of every set of priorities answers, where each operator is left with itself too, and under an accepted sheet
/// what each pair of operators counts.
fn numbers(kinds: &[u8]) -> [usize; 6] {
    let pairs: Vec<[u8; 2]> =
        (0..OPERATORS).flat_map(|a| (0..OPERATORS).filter(move |&b| b != a).map(move |b| [a, b])).collect();
    let mut seen = [0; 6];
    for set in 0..1 << pairs.len() {
        let mut rules: Vec<u8> = (0..OPERATORS).flat_map(|a| [2, a, a]).collect();
        for (at, [a, b]) in pairs.iter().enumerate() {
            if set >> at & 1 == 1 {
                rules.extend([1, *a, *b]);
            }
        }
        let (number, sheet, panel) = both::switched_in(kinds, &rules);
        seen[usize::from(number)] += 1;
        if number == 0 {
            for top in 0..OPERATORS {
                for below in 0..OPERATORS {
                    for side in [Side::Left, Side::Right] {
                        let tree = pair(kinds, top, side, below);
                        let (count, record) = (sheet.conflicts(&tree), tree.record());
                        let judged = panel.judge(&record).map(usize::from);
                        assert_eq!(judged, Ok(count), "{record:02x?} under {kinds:02x?} {rules:02x?}");
                    }
                }
            }
        }
    }
    seen
}

/// The accepted sheets of infix operators order them, in one of 24 ways: each over the next, and each over others further down or
/// not, which are three pairs. Sheets of prefix operators alone are all accepted.
#[test]
fn every_set_of_priorities() {
    for prefixes in 0..=usize::from(OPERATORS) {
        let kinds = [[INFIX].repeat(usize::from(OPERATORS) - prefixes), [PREFIX].repeat(prefixes)].concat();
        let seen = numbers(&kinds);
        match prefixes {
            0 => assert_eq!(seen[0], 24 * 8),
            4 => assert_eq!(seen[0], 1 << 12),
            _ => assert!(seen[0] > 0, "{seen:?}"),
        }
        assert!(prefixes == 4 || seen[4] > 0 && seen[5] > 0, "{seen:?}");
    }
}
