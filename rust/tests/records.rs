//! Records under sheet A: what yield, judge and operand answer of each, and the records that all calls turn down.
//!
//! The answers are document 01's: "The yield of a tree is its row", "The conflict count is the number of pairs of a node and a
//! side", "An operand of a node is handed back as that part of the caller's record", "a node's only tree counts as its left".
#![cfg(feature = "alloc")]
use tihvomen::{Panel, Refusal, Side};

/// Sheet A, which excludes L(1,0), R(1,0), R(0,0) and R(1,1).
fn panel_with_sheet_a() -> Panel {
    let mut panel = Panel::new();
    panel.stage(2, &[0, 0, 1, 1, 0, 2, 1, 1, 2, 0, 0]).unwrap();
    panel.switch().unwrap();
    panel
}

/// The record's row, count, and operands; each operand is a part of the record itself.
fn answers(record: &[u8], row: &[u8], count: u8, left: &[u8], right: &[u8]) {
    let panel = panel_with_sheet_a();
    assert_eq!(panel.yield_row(record).unwrap(), row, "the row of {record:02x?}");
    assert_eq!(panel.judge(record), Ok(count), "the count of {record:02x?}");
    for (side, expected) in [(Side::Left, left), (Side::Right, right)] {
        let part = panel.operand(record, side).unwrap();
        assert_eq!(part, expected, "the {side:?} operand of {record:02x?}");
        assert!(part.is_empty() || record.as_ptr_range().contains(&part.as_ptr()), "a copy was handed back");
    }
}

/// Every call that is given the record answers this.
fn refused(panel: &Panel, record: &[u8], refusal: Refusal) {
    assert_eq!(panel.yield_row(record), Err(refusal), "the row of {record:02x?}");
    assert_eq!(panel.judge(record), Err(refusal), "the count of {record:02x?}");
    assert_eq!(panel.repair(record), Err(refusal), "the repair of {record:02x?}");
    assert_eq!(panel.shortest_row(record), Err(refusal), "the shortest row of {record:02x?}");
    assert_eq!(panel.operand(record, Side::Left), Err(refusal), "the left operand of {record:02x?}");
    assert_eq!(panel.operand(record, Side::Right), Err(refusal), "the right operand of {record:02x?}");
    assert_eq!(panel.clone().put_record(0, record), Err(refusal), "the put of {record:02x?}");
    assert_eq!(panel.clone().put_claim(0, &[0x80], record), Err(refusal), "the claim of {record:02x?}");
}

#[test]
fn short_records() {
    // Cases 2 and 6: two trees of one row.
    let row = [0x80, 0, 0x81, 1, 0x82];
    answers(&[0, 0x80, 1, 0x81, 0x82], &row, 0, &[0x80], &[1, 0x81, 0x82]);
    answers(&[1, 0, 0x80, 0x81, 0x82], &row, 1, &[0, 0x80, 0x81], &[0x82]);
    // 00 below 01 on both sides.
    let both = [1, 0, 0x80, 0x81, 0, 0x82, 0x83];
    answers(&both, &[0x80, 0, 0x81, 1, 0x82, 0, 0x83], 2, &both[1..4], &both[4..]);
    // A reading has no operand, a bracket only a left one, and it is never the operator inside it.
    answers(&[0x80], &[0x80], 0, &[], &[]);
    answers(&[0x20, 0, 0x80, 0x81], &[0x20, 0x80, 0, 0x81, 0x21], 0, &[0, 0x80, 0x81], &[]);
    let bracketed = [1, 0x20, 0, 0x80, 0x81, 0x82];
    answers(&bracketed, &[0x20, 0x80, 0, 0x81, 0x21, 1, 0x82], 0, &bracketed[1..5], &[0x82]);
}

/// Three infix operators and a prefix one: 02 over 01, 01 over 00, 00 over 03, so that 03 takes as much as it can.
#[test]
fn prefix_operators() {
    let mut panel = Panel::new();
    let rules = [1, 2, 1, 1, 1, 0, 1, 0, 3, 2, 2, 2, 2, 1, 1, 2, 0, 0];
    panel.stage(4, &[&[0, 0, 0, 1], &rules[..]].concat()).unwrap();
    panel.switch().unwrap();
    // The operand of a prefix operator counts as its left one.
    let only = [3, 3, 0x80];
    assert_eq!(panel.operand(&only, Side::Left), Ok(&only[1..]));
    assert_eq!(panel.operand(&only, Side::Right), Ok(&[][..]));
    assert_eq!(panel.yield_row(&only).unwrap(), only);
    // 03 stands three nodes down on the right edge of the left operand of 00.
    let edge = [0, 0, 0x80, 1, 0x81, 2, 0x82, 3, 0x83, 0x84];
    let row = [0x80, 0, 0x81, 1, 0x82, 2, 3, 0x83, 0, 0x84];
    assert_eq!((panel.judge(&edge), panel.yield_row(&edge).unwrap()), (Ok(1), row.to_vec()));
    assert_eq!(panel.repair(&edge).unwrap(), [0, 0x80, 1, 0x81, 2, 0x82, 3, 0, 0x83, 0x84]);
    assert_eq!(panel.operand(&edge, Side::Left), Ok(&edge[1..9]));
    // A bracket ends the edge. Each node on it counts. On the right of an infix operator a prefix one may stand.
    assert_eq!(panel.judge(&[0, 0, 0x80, 1, 0x81, 0x20, 2, 0x82, 3, 0x83, 0x84]), Ok(0));
    assert_eq!(panel.judge(&[0, 3, 3, 3, 0x80, 0x81]), Ok(3));
    assert_eq!(panel.judge(&[0, 0x80, 3, 0x81]), Ok(0));
    // One pair of brackets is enough, and it is put around the left operand of 00, where the edge is looked at.
    let bracketed = [0x20, 0x80, 0, 3, 0x81, 0x21, 0, 0x82];
    assert_eq!(panel.shortest_row(&[0, 0x20, 0, 0x80, 0x20, 3, 0x81, 0x82]).unwrap(), bracketed);
    refused(&panel, &[3], Refusal::NoTree);
    refused(&panel, &[3, 0x80, 0x81], Refusal::NoTree);
    refused(&panel, &[0, 3, 0x80], Refusal::NoTree);
    // 254 prefix operators before a reading; 252 on the right edge of the left operand of 00.
    let longest = [[3].repeat(254), vec![0x80]].concat();
    assert_eq!((panel.judge(&longest), panel.yield_row(&longest).unwrap()), (Ok(0), longest.clone()));
    assert_eq!(panel.judge(&[&[0], &[3].repeat(252)[..], &[0x80, 0x81]].concat()), Ok(252));
    refused(&panel, &[&[3], &longest[..]].concat(), Refusal::Oversize);
}

/// 255 bytes and 255 tokens at most: combs of 127 operators, and 127 brackets.
#[test]
fn longest_records() {
    let row = [&[0x80], &[0, 0x80].repeat(127)[..]].concat();
    let left = [[0].repeat(127), [0x80].repeat(128)].concat();
    answers(&left, &row, 0, &left[1..254], &[0x80]);
    // Each of the 127 nodes but the last has 00 at the top of its right operand.
    let right = [[0, 0x80].repeat(127), vec![0x80]].concat();
    answers(&right, &row, 126, &[0x80], &right[2..]);
    let nested = [[0x20].repeat(127), vec![0x80]].concat();
    let nested_row = [nested.clone(), [0x21].repeat(127)].concat();
    answers(&nested, &nested_row, 0, &nested[1..], &[]);
}

/// "Record 1 (its bytes), 3, 7, 1 (its row)": the first that applies.
#[test]
fn refused_records() {
    let panel = panel_with_sheet_a();
    for record in [&[][..], &[0, 0x80], &[0x80, 0x81]] {
        refused(&panel, record, Refusal::NoTree);
    }
    // 21; bytes without meaning; an operator not below n. All but the first stand in what is no tree either.
    for record in [&[0x20, 0x80, 0x21][..], &[0x80, 0x7f], &[0x80, 2], &[0, 0x80, 0x22]] {
        refused(&panel, record, Refusal::Stranger);
    }
    refused(&Panel::new(), &[0, 0x80, 0x81], Refusal::Stranger);
    let comb = [[0].repeat(127), [0x80].repeat(128)].concat();
    refused(&panel, &comb[..254], Refusal::NoTree);
    refused(&panel, &[&comb[..], &[0x80]].concat(), Refusal::Oversize);
    refused(&panel, &[0x7f; 256], Refusal::Oversize);
    // Rows of 257 tokens: 128 brackets, and two brackets around 126 operators.
    refused(&panel, &[[0x20].repeat(128), vec![0x80]].concat(), Refusal::Oversize);
    refused(&panel, &[[0x20].repeat(2), [0].repeat(126), [0x80].repeat(127)].concat(), Refusal::Oversize);
}
