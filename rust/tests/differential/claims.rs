//! Claims of short rows: every row with every tree of such a row. The answer is read off all trees of the row.
use crate::both;
use crate::expression::Expression;
use crate::runs::NUMBERS;
use crate::sheet::{lists, Sheet};
use crate::small::{all_rules, row};
use crate::tree::{Tree, INFIX, OPENING, PREFIX};
use std::collections::{BTreeMap, BTreeSet};
use tihvomen::{Panel, Refusal};

/// Rows without brackets have up to so many operators, rows with a pair of brackets up to one less.
const FEW_OPERATORS: usize = 3;

const PLACE: u8 = 3;

/// All trees of all these rows.
fn trees(kinds: &[u8]) -> Vec<Tree> {
    let mut found = Vec::new();
    for operators in (0..=FEW_OPERATORS).flat_map(|count| lists(kinds.len() as u8, count)) {
        let bare = Expression::of_row(&row(kinds, &operators), kinds).expect("a row").all_trees();
        if operators.len() < FEW_OPERATORS {
            found.extend(bare.iter().flat_map(|tree| with_brackets(tree, kinds)));
        }
        found.extend(bare);
    }
    found
}

/// The trees that have one node of this one in brackets, each.
fn with_brackets(tree: &Tree, kinds: &[u8]) -> Vec<Tree> {
    let record = tree.record();
    let bracketed = |at: usize| [&record[..at], &[OPENING], &record[at..]].concat();
    (0..record.len()).map(|at| Tree::of_record(&bracketed(at), kinds).expect("a tree")).collect()
}

/// Claims each row with the record of each tree, and counts the numbers.
fn check(sheet: &Sheet, panel: &Panel, trees: &[Tree], seen: &mut [usize; NUMBERS]) {
    let claims: Vec<(Vec<u8>, Vec<u8>)> = trees.iter().map(|tree| (tree.row(), tree.record())).collect();
    let rows: BTreeSet<&Vec<u8>> = claims.iter().map(|(row, _)| row).collect();
    let mut conflict_free = BTreeMap::new();
    for tree in trees.iter().filter(|tree| sheet.conflicts(tree) == 0) {
        assert_eq!(conflict_free.insert(tree.row(), tree.record()), None, "a row has two conflict-free trees");
    }
    assert_eq!(conflict_free.len(), rows.len(), "a row has no conflict-free tree");
    for (row, free) in &conflict_free {
        let mut put = panel.clone();
        assert_eq!(put.put_row(PLACE, row), Ok(()));
        for (its_row, record) in &claims {
            let number = if record == free {
                0
            } else if its_row == row {
                17
            } else {
                16
            };
            let mut claimed = panel.clone();
            let got = claimed.put_claim(PLACE, row, record).map_err(Refusal::number);
            assert_eq!(got.err().unwrap_or(0), number, "{row:02x?} with {record:02x?}");
            if number == 0 {
                assert_eq!(claimed.fetch_record(PLACE).as_ref(), Ok(record));
                assert_eq!(claimed.fetch_row(PLACE).as_ref(), Ok(row));
            }
            let after = if number == 0 { &put } else { panel };
            assert!(claimed == *after, "the panel after {row:02x?} with {record:02x?}");
            seen[usize::from(number)] += 1;
        }
    }
}

/// Under every accepted sheet of these kinds of operators, by rules of sides. Without infix operators a row has one tree.
#[test]
fn every_claim_of_short_rows() {
    for kinds in [&[INFIX, INFIX][..], &[INFIX, PREFIX], &[INFIX, INFIX, PREFIX], &[PREFIX, PREFIX]] {
        let mut seen = [0; NUMBERS];
        let trees = trees(kinds);
        for rules in all_rules(kinds) {
            let (number, sheet, mut panel) = both::switched_in(kinds, &rules);
            if number == 0 {
                // An accepted claim replaces a longer record.
                let longer = [vec![OPENING; 8], vec![0xff]].concat();
                assert_eq!((panel.put_record(PLACE, &longer), panel.put_record(PLACE + 1, &longer)), (Ok(()), Ok(())));
                check(&sheet, &panel, &trees, &mut seen);
            }
        }
        assert!(seen[0] > 0 && seen[16] > 0, "{kinds:02x?}: {seen:?}");
        assert_eq!(seen[17] > 0, kinds.contains(&INFIX), "{kinds:02x?}: {seen:?}");
    }
}
