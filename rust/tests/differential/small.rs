//! Every sheet of three operators with prefix ones among them, by rules of sides: the number of its staging, and under an accepted
//! one the powers of the operators and the trees of all short rows.
use crate::both;
use crate::sheet::lists;
use crate::theory::kinds_of_bits;
use crate::tree::{INFIX, PREFIX};
use tihvomen::Refusal;

const OPERATORS: u8 = 3;

/// Rows with up to so many operators are built.
const FEW_OPERATORS: usize = 4;

/// The row of these operators: a reading before each infix one, and at the end.
pub fn row(kinds: &[u8], operators: &[u8]) -> Vec<u8> {
    let token = |&operator: &u8| match kinds[usize::from(operator)] {
        PREFIX => vec![operator],
        _ => vec![0x80, operator],
    };
    [operators.iter().flat_map(token).collect(), vec![0x81]].concat()
}

/// The rules of all sheets of operators of these kinds. Each pair of an operator and an infix one on its right is decided in one of four
/// ways: the first closes before the second, yields to it, neither, both.
pub fn all_rules(kinds: &[u8]) -> impl Iterator<Item = Vec<u8>> {
    let n = kinds.len() as u8;
    let infix = (0..n).filter(|&operator| kinds[usize::from(operator)] == INFIX);
    let pairs: Vec<[u8; 2]> = infix.flat_map(|b| (0..n).map(move |a| [a, b])).collect();
    (0..1usize << (2 * pairs.len())).map(move |code| {
        let mut rules = Vec::new();
        for (at, [a, b]) in pairs.iter().enumerate() {
            if code >> (2 * at) & 1 == 1 {
                rules.extend([2, *a, *b]);
            }
            if code >> (2 * at + 1) & 1 == 1 {
                rules.extend([3, *b, *a]);
            }
        }
        rules
    })
}

/// How often the staging of these sheets has each number.
fn numbers(kinds: &[u8]) -> [usize; 6] {
    let mut seen = [0; 6];
    for rules in all_rules(kinds) {
        let (number, sheet, panel) = both::switched_in(kinds, &rules);
        seen[usize::from(number)] += 1;
        if number == 0 {
            for operator in 0..=OPERATORS {
                let powers = panel.powers(operator).map(|powers| [powers.left, powers.right]);
                assert_eq!(
                    powers.map_err(Refusal::number),
                    sheet.powers(operator),
                    "{operator} {kinds:02x?} {rules:02x?}"
                );
            }
            for operators in (0..=FEW_OPERATORS).flat_map(|count| lists(OPERATORS, count)) {
                let row = row(kinds, &operators);
                let record = sheet.tree_of(&row).record();
                assert_eq!(panel.build(&row), Ok(record), "{row:02x?} under {kinds:02x?} {rules:02x?}");
            }
        }
    }
    seen
}

/// With two infix operators some sheets are refused for what a prefix one does to the two; with one, each prefix one is decided alone.
#[test]
fn every_sheet_of_three_operators_with_a_prefix_one() {
    for prefixes in 1..1 << OPERATORS {
        let kinds = kinds_of_bits(OPERATORS, prefixes);
        let seen = numbers(&kinds);
        match kinds.iter().filter(|&&kind| kind == INFIX).count() {
            0 => assert_eq!(seen, [1, 0, 0, 0, 0, 0]),
            // Each of three pairs in one of two ways; or one of them both ways; or none both ways and one not at all.
            1 => assert_eq!(seen, [8, 0, 0, 0, 64 - 27, 27 - 8]),
            _ => assert!(seen[0] > 0 && seen[4] == 4096 - 729 && seen[5] == 729 - seen[0], "{seen:?}"),
        }
    }
}
