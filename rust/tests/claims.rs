//! Rows with the records that are claimed for them, worked out by hand.
//!
//! A claim is accepted where the record is that of the row's conflict-free tree under the sheet in force, and is then held as sent.
//! Of 8, the row's list, the record's list, 16 and 17 the first that applies is given.
#![cfg(feature = "alloc")]
use tihvomen::{Panel, Refusal, PLACES};

/// Two infix operators, each left with itself: 01 over 00, and the other way round.
const SHEET_A: [u8; 11] = [0, 0, 1, 1, 0, 2, 1, 1, 2, 0, 0];
const TURNED: [u8; 11] = [0, 0, 1, 0, 1, 2, 1, 1, 2, 0, 0];

/// The row has the first record under sheet A, and the second under the turned one.
const ROW: [u8; 5] = [0x80, 0, 0x81, 1, 0x82];
const UNDER_A: [u8; 5] = [0, 0x80, 1, 0x81, 0x82];
const UNDER_TURNED: [u8; 5] = [1, 0, 0x80, 0x81, 0x82];

/// A panel with this sheet in force, and a reading in brackets at place 3.
fn panel(n: u8, sheet: &[u8]) -> Panel {
    let mut panel = Panel::new();
    panel.stage(n, sheet).unwrap();
    panel.switch().unwrap();
    panel.put_record(3, &[vec![0x20; 20], vec![0xff]].concat()).unwrap();
    panel
}

/// The claim is accepted, where a tree is held and where none is. The record is then held as sent, and all is as after a put of the
/// row.
fn accepted(panel: &Panel, row: &[u8], record: &[u8]) {
    for place in [3, 4] {
        let (mut claimed, mut put) = (panel.clone(), panel.clone());
        assert_eq!(claimed.put_claim(place, row, record), Ok(()), "{row:02x?} with {record:02x?}");
        assert_eq!(claimed.fetch_record(place).unwrap(), record);
        assert_eq!(claimed.fetch_row(place).unwrap(), row);
        put.put_row(place, row).unwrap();
        assert_eq!(claimed, put);
    }
}

/// The claim is refused with this number, and every byte of the panel is as before.
fn refused(panel: &Panel, row: &[u8], record: &[u8], refusal: Refusal) {
    for place in [3, 4] {
        let mut claimed = panel.clone();
        assert_eq!(claimed.put_claim(place, row, record), Err(refusal), "{row:02x?} with {record:02x?}");
        assert_eq!(claimed, *panel);
    }
}

#[test]
fn conflicts_and_other_rows() {
    let panel = panel(2, &SHEET_A);
    accepted(&panel, &ROW, &UNDER_A);
    refused(&panel, &ROW, &UNDER_TURNED, Refusal::Conflict);
    // Another reading, another operator, the same tokens in another order, more and fewer of them.
    refused(&panel, &[0x80, 0, 0x81], &[0, 0x80, 0x82], Refusal::OtherRow);
    refused(&panel, &[0x80, 0, 0x81], &[1, 0x80, 0x81], Refusal::OtherRow);
    refused(&panel, &[0x80, 0, 0x81], &[0, 0x81, 0x80], Refusal::OtherRow);
    refused(&panel, &ROW[..3], &UNDER_A, Refusal::OtherRow);
    refused(&panel, &ROW, &[0, 0x80, 0x81], Refusal::OtherRow);
    refused(&panel, &ROW, &[0x80], Refusal::OtherRow);
    // Another row comes before a conflict.
    refused(&panel, &[0x80, 0, 0x81, 0, 0x82], &UNDER_TURNED, Refusal::OtherRow);
    refused(&panel, &[0x80], &UNDER_TURNED, Refusal::OtherRow);
    // What is equal groups to the left.
    accepted(&panel, &[0x80, 0, 0x81, 0, 0x82], &[0, 0, 0x80, 0x81, 0x82]);
    refused(&panel, &[0x80, 0, 0x81, 0, 0x82], &[0, 0x80, 0, 0x81, 0x82], Refusal::Conflict);
    // The node at the top shows no conflict, one further down does.
    let long = [0x80, 0, 0x81, 1, 0x82, 0, 0x83];
    accepted(&panel, &long, &[0, 0, 0x80, 1, 0x81, 0x82, 0x83]);
    refused(&panel, &long, &[0, 1, 0, 0x80, 0x81, 0x82, 0x83], Refusal::Conflict);
    let inside = [0x20, 0x80, 0, 0x81, 1, 0x82, 0x21, 0, 0x83];
    accepted(&panel, &inside, &[0, 0x20, 0, 0x80, 1, 0x81, 0x82, 0x83]);
    refused(&panel, &inside, &[0, 0x20, 1, 0, 0x80, 0x81, 0x82, 0x83], Refusal::Conflict);
}

/// Brackets are part of the row: a record with other brackets has another row, whatever it means.
#[test]
fn brackets() {
    let panel = panel(2, &SHEET_A);
    let nested = |depth: usize| {
        let record = [vec![0x20; depth], vec![0x80]].concat();
        ([&record[..], &vec![0x21; depth]].concat(), record)
    };
    for depth in 0..4 {
        for other in 0..4 {
            let ((row, _), (_, record)) = (nested(depth), nested(other));
            if depth == other {
                accepted(&panel, &row, &record);
            } else {
                refused(&panel, &row, &record, Refusal::OtherRow);
            }
        }
    }
    let bracketed = [0x20, 0x80, 0, 0x81, 0x21, 1, 0x82];
    let record = [1, 0x20, 0, 0x80, 0x81, 0x82];
    accepted(&panel, &bracketed, &record);
    refused(&panel, &bracketed, &UNDER_TURNED, Refusal::OtherRow);
    refused(&panel, &ROW, &record, Refusal::OtherRow);
    refused(&panel, &[0x20, 0x80, 0, 0x81, 1, 0x82, 0x21], &record, Refusal::OtherRow);
    accepted(&panel, &nested(127).0, &nested(127).1);
}

/// 127 operators that are equal: they group to the left.
#[test]
fn longest_claims() {
    let panel = panel(2, &SHEET_A);
    let row = [&[0x80], &[0, 0x80].repeat(127)[..]].concat();
    let left = [[0].repeat(127), [0x80].repeat(128)].concat();
    accepted(&panel, &row, &left);
    refused(&panel, &row, &[[0, 0x80].repeat(127), vec![0x80]].concat(), Refusal::Conflict);
    // One conflict, at the lowest of 126 nodes that lean to the left.
    let lowest = [[0].repeat(126), vec![0x80, 0, 0x80, 0x80], [0x80].repeat(125)].concat();
    refused(&panel, &row, &lowest, Refusal::Conflict);
    for at in [0, 126, 127, 254] {
        let mut other = left.clone();
        other[at] ^= 1;
        refused(&panel, &row, &other, Refusal::OtherRow);
    }
    refused(&panel, &row, &left[1..254], Refusal::OtherRow);
}

/// 02 over 01, 01 over 00, 00 over 03, which is prefix and so takes as much as it can.
#[test]
fn prefix_operators() {
    let rules = [1, 2, 1, 1, 1, 0, 1, 0, 3, 2, 2, 2, 2, 1, 1, 2, 0, 0];
    let panel = panel(4, &[&[0, 0, 0, 1], &rules[..]].concat());
    accepted(&panel, &[3, 3, 0x80], &[3, 3, 0x80]);
    refused(&panel, &[3, 3, 0x80], &[3, 0x80], Refusal::OtherRow);
    accepted(&panel, &[3, 0x80, 0, 0x81], &[3, 0, 0x80, 0x81]);
    refused(&panel, &[3, 0x80, 0, 0x81], &[0, 3, 0x80, 0x81], Refusal::Conflict);
    // 03 stands three nodes down on the right edge of the left operand of 00.
    let row = [0x80, 0, 0x81, 1, 0x82, 2, 3, 0x83, 0, 0x84];
    accepted(&panel, &row, &[0, 0x80, 1, 0x81, 2, 0x82, 3, 0, 0x83, 0x84]);
    refused(&panel, &row, &[0, 0, 0x80, 1, 0x81, 2, 0x82, 3, 0x83, 0x84], Refusal::Conflict);
    // A bracket ends the edge.
    let row = [0x80, 0, 0x20, 3, 0x81, 0x21, 0, 0x82];
    accepted(&panel, &row, &[0, 0, 0x80, 0x20, 3, 0x81, 0x82]);
    refused(&panel, &row, &[0, 0x80, 0, 0x20, 3, 0x81, 0x82], Refusal::Conflict);
}

/// Each list in its order, and the row's before the record's: of two numbers that apply, the first is given.
#[test]
fn order_of_the_numbers() {
    let panel = panel(2, &SHEET_A);
    let comb = [[0].repeat(127), [0x80].repeat(128)].concat();
    let rows = [
        // 256 tokens that are no row, and such without meaning; a row of 257.
        ([0x80, 0].repeat(128), Refusal::Oversize),
        (vec![0x7f; 256], Refusal::Oversize),
        ([&[0x80], &[0, 0x80].repeat(128)[..]].concat(), Refusal::Oversize),
        (vec![0x80, 2, 0x81], Refusal::Stranger),
        (vec![0x7f, 0x80], Refusal::Stranger),
        (vec![], Refusal::NoRow),
        (vec![0x80, 0x81], Refusal::NoRow),
        (vec![0x20, 0x21], Refusal::NoRow),
    ];
    let records = [
        // 256 bytes that are no tree, and such without meaning; a tree of 257.
        ([&comb[..], &[0x80]].concat(), Refusal::Oversize),
        (vec![0x7f; 256], Refusal::Oversize),
        ([&[0], &comb[..], &[0x80]].concat(), Refusal::Oversize),
        (vec![0x20, 0x80, 0x21], Refusal::Stranger),
        (vec![2, 0x80, 0x81], Refusal::Stranger),
        (vec![0x80, 0x7f], Refusal::Stranger),
        (vec![], Refusal::NoTree),
        (vec![0, 0x80], Refusal::NoTree),
        (vec![0x80, 0x81], Refusal::NoTree),
        // A row of 257 tokens; the same with conflicts.
        ([vec![0x20; 128], vec![0x80]].concat(), Refusal::Oversize),
        ([vec![0x20; 2], [0, 0x80].repeat(126), vec![0x80]].concat(), Refusal::Oversize),
    ];
    let good = [&[0x80][..], &UNDER_A, &UNDER_TURNED, &comb[..]];
    for (row, refusal) in &rows {
        records.iter().for_each(|(record, _)| refused(&panel, row, record, *refusal));
        good.iter().for_each(|record| refused(&panel, row, record, *refusal));
    }
    for (record, refusal) in &records {
        [&[0x80][..], &[0xff], &ROW].iter().for_each(|row| refused(&panel, row, record, *refusal));
    }
    // No place comes before all of it.
    for place in [PLACES, PLACES + 3, u8::MAX] {
        let mut claimed = panel.clone();
        for (row, record) in rows.iter().flat_map(|(row, _)| records.iter().map(move |(record, _)| (row, record))) {
            assert_eq!(claimed.put_claim(place, row, record), Err(Refusal::Place));
        }
        for record in good {
            assert_eq!(claimed.put_claim(place, &ROW, record), Err(Refusal::Place));
        }
        assert_eq!(claimed, panel);
    }
}

/// What is claimed is held like what is put: it replaces and is replaced, it is dropped, and a switch rebuilds it.
#[test]
fn claims_are_puts() {
    let mut panel = panel(2, &SHEET_A);
    assert_eq!(panel.put_claim(3, &ROW, &UNDER_A), Ok(()));
    assert_eq!(panel.put_claim(3, &ROW[..1], &ROW[..1]), Ok(()));
    assert_eq!((panel.fetch_record(3), panel.fetch_row(3)), (Ok(vec![0x80]), Ok(vec![0x80])));
    assert_eq!(panel.image(3).unwrap()[..3], [1, 0x80, 0]);
    assert_eq!((panel.put_claim(3, &ROW, &UNDER_A), panel.put_claim(15, &ROW, &UNDER_A)), (Ok(()), Ok(())));
    assert_eq!((panel.drop_place(15), panel.fetch_row(15)), (Ok(()), Err(Refusal::Empty)));
    // The staged sheet is not seen before the switch; afterwards it alone is.
    panel.stage(2, &TURNED).unwrap();
    refused(&panel, &ROW, &UNDER_TURNED, Refusal::Conflict);
    panel.switch().unwrap();
    assert_eq!(panel.fetch_record(3).unwrap(), UNDER_TURNED);
    assert_eq!(panel.fetch_row(3).unwrap(), ROW);
    refused(&panel, &ROW, &UNDER_A, Refusal::Conflict);
    accepted(&panel, &ROW, &UNDER_TURNED);
    // 01 is in use by the claim alone.
    panel.stage(1, &[0, 2, 0, 0]).unwrap();
    assert_eq!(panel.switch(), Err(Refusal::InUse));
    assert_eq!(panel.put_row(3, &[0x80]), Ok(()));
    assert_eq!(panel.switch(), Ok(()));
    refused(&panel, &ROW, &UNDER_A, Refusal::Stranger);
}

/// What the panel itself builds, repairs and holds is accepted; a fresh panel takes readings in brackets.
#[test]
fn records_of_the_panel() {
    let mut panel = panel(2, &SHEET_A);
    panel.put_row(5, &ROW).unwrap();
    let made = [panel.build(&ROW), panel.repair(&UNDER_TURNED), panel.fetch_record(5)];
    made.into_iter().for_each(|record| accepted(&panel, &ROW, &record.unwrap()));
    accepted(&Panel::new(), &[0x20, 0x80, 0x21], &[0x20, 0x80]);
    refused(&Panel::new(), &ROW, &UNDER_A, Refusal::Stranger);
}
