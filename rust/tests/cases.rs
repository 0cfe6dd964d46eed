//! Document 01's cases, with the chains of priority and the kind bytes that document 02 adds, and the calls that give their answers
//! as vectors.
#![cfg(feature = "alloc")]
use tihvomen::{Panel, Refusal, Side, IMAGE_BYTES, INFIX, PLACES, PREFIX};

/// Two infix operators: 01 over 00, each left with itself.
const SHEET_A: [u8; 11] = [0, 0, 1, 1, 0, 2, 1, 1, 2, 0, 0];

fn panel_with_sheet_a() -> Panel {
    let mut panel = Panel::default();
    panel.stage(2, &SHEET_A).unwrap();
    panel.switch().unwrap();
    panel
}

#[test]
fn rows_1_to_5() {
    let panel = panel_with_sheet_a();
    let cases: [(&[u8], &[u8]); 5] = [
        (&[0x80], &[0x80]),
        (&[0x80, 0, 0x81, 1, 0x82], &[0, 0x80, 1, 0x81, 0x82]),
        (&[0x80, 1, 0x81, 0, 0x82], &[0, 1, 0x80, 0x81, 0x82]),
        (&[0x80, 0, 0x81, 0, 0x82], &[0, 0, 0x80, 0x81, 0x82]),
        (&[0x20, 0x80, 0, 0x81, 0x21, 1, 0x82], &[1, 0x20, 0, 0x80, 0x81, 0x82]),
    ];
    for (row, record) in cases {
        assert_eq!(panel.build(row).unwrap(), record);
        assert_eq!(panel.yield_row(record).unwrap(), row);
        assert_eq!(panel.judge(record), Ok(0));
    }
}

#[test]
fn repair_6_and_damage_7_8() {
    let panel = panel_with_sheet_a();
    let record = [1, 0, 0x80, 0x81, 0x82];
    assert_eq!(panel.repair(&record).unwrap(), [0, 0x80, 1, 0x81, 0x82]);
    assert_eq!(panel.judge(&record), Ok(1));
    for row in [&[][..], &[0x80, 0x81], &[0x20, 0x21]] {
        assert_eq!(panel.build(row), Err(Refusal::NoRow));
    }
    for record in [&[][..], &[0, 0x80], &[0x80, 0x81]] {
        assert_eq!(panel.repair(record), Err(Refusal::NoTree));
    }
}

#[test]
fn sheets_9_to_14() {
    let stage = |n: u8, rules: &[u8]| Panel::new().stage(n, &[&vec![INFIX; n.into()], rules].concat());
    let round = [2, 0, 0, 2, 1, 1, 2, 2, 2, 1, 0, 1, 1, 1, 2, 1, 2, 0];
    assert_eq!(stage(1, &[]), Err(Refusal::Double));
    assert_eq!(stage(1, &[2, 0, 0, 3, 0, 0]), Err(Refusal::Dead));
    assert_eq!(stage(0, &[]), Ok(()));
    assert_eq!(stage(3, &round), Err(Refusal::Dead));
    assert_eq!(stage(3, &round[..15]), Ok(()));
    let by_sides = [2, 0, 0, 2, 1, 1, 2, 2, 2, 2, 0, 1, 3, 0, 1, 2, 1, 2, 3, 1, 2, 2, 2, 0, 3, 2, 0];
    assert_eq!(stage(3, &by_sides), Err(Refusal::Double));
    let all_left: Vec<u8> = (0..32).flat_map(|a| (0..32).flat_map(move |b| [2, a, b])).collect();
    assert_eq!(stage(32, &all_left), Ok(()));
    assert_eq!(stage(33, &all_left), Err(Refusal::Oversize));
    let long = [0x80, 0].repeat(128);
    let panel = panel_with_sheet_a();
    assert_eq!(panel.build(&long[..255]).map(|record| record.len()), Ok(255));
    assert_eq!(panel.build(&long), Err(Refusal::Oversize));
}

/// "over 6,144 rule bytes", the kind bytes not counted. 1 comes before 2, so it does not matter that 6,145 is no multiple of three.
#[test]
fn rule_bytes_at_the_limit() {
    let bytes = [&SHEET_A[..2], &SHEET_A[2..].repeat(683)].concat();
    let mut panel = Panel::new();
    assert_eq!(panel.stage(2, &bytes[..6146]), Ok(()));
    let before = panel.clone();
    for length in [6147, 6148, 6149] {
        assert_eq!(panel.stage(2, &bytes[..length]), Err(Refusal::Oversize));
    }
    assert_eq!(panel.stage(2, &bytes[..6145]), Err(Refusal::Torn));
    assert!(panel == before);
}

/// "Fewer than n kind bytes is 2": there are then no rule bytes. What stands after n kind bytes are rules. "An unknown kind byte is 3."
#[test]
fn kind_bytes() {
    let stage = |n, bytes: &[u8]| Panel::new().stage(n, bytes);
    assert_eq!(stage(3, &[]), Err(Refusal::Torn));
    assert_eq!(stage(3, &[INFIX, 9]), Err(Refusal::Torn));
    assert_eq!(stage(33, &[]), Err(Refusal::Oversize));
    assert_eq!(stage(3, &[PREFIX; 3]), Ok(()));
    assert_eq!(stage(3, &[PREFIX; 4]), Err(Refusal::Torn));
    assert_eq!(stage(3, &[PREFIX; 6]), Ok(()));
    assert_eq!(stage(2, &[PREFIX, 2]), Err(Refusal::Stranger));
    assert_eq!(stage(2, &[255, PREFIX, 1]), Err(Refusal::Torn));
    assert_eq!(stage(1, &[PREFIX, INFIX, INFIX, INFIX]), Err(Refusal::Stranger));
    // Not double before there is an infix operator.
    assert_eq!(stage(2, &[PREFIX, INFIX]), Err(Refusal::Double));
    assert_eq!(stage(2, &[PREFIX, INFIX, 2, 1, 1]), Err(Refusal::Double));
    assert_eq!(stage(2, &[PREFIX, INFIX, 2, 1, 1, 2, 0, 1]), Ok(()));
    assert_eq!(stage(2, &[PREFIX, INFIX, 2, 1, 1, 2, 0, 1, 3, 1, 0]), Err(Refusal::Dead));
}

/// 11 "is also given where a held tree uses an operator whose kind the new sheet changes", the staged one.
#[test]
fn kinds_in_use() {
    let mut panel = Panel::new();
    panel.stage(2, &[PREFIX, PREFIX]).unwrap();
    panel.switch().unwrap();
    panel.put_row(0, &[1, 1, 0x80]).unwrap();
    for (n, sheet) in
        [(2, &[PREFIX, INFIX, 2, 1, 1, 1, 0, 1][..]), (2, &[INFIX, INFIX, 2, 1, 1, 1, 0, 1, 2, 0, 0]), (1, &[PREFIX])]
    {
        panel.stage(n, sheet).unwrap();
        let before = panel.clone();
        assert_eq!(panel.switch(), Err(Refusal::InUse));
        assert!(panel == before);
    }
    panel.stage(2, &[INFIX, PREFIX, 2, 0, 0, 1, 0, 1]).unwrap();
    panel.switch().unwrap();
    assert_eq!(panel.fetch_record(0).unwrap(), [1, 1, 0x80]);
}

#[test]
fn operands_are_parts_of_the_record() {
    let panel = panel_with_sheet_a();
    let record = [1, 0x20, 0, 0x80, 0x81, 0x82];
    let left = panel.operand(&record, Side::Left).unwrap();
    assert!(std::ptr::eq(left, &record[1..5]));
    assert_eq!(panel.operand(&record, Side::Right), Ok(&record[5..]));
    assert_eq!(panel.operand(left, Side::Left), Ok(&record[2..5]));
    assert_eq!(panel.operand(left, Side::Right), Ok(&[][..]));
    assert_eq!(panel.operand(&record[5..], Side::Left), Ok(&[][..]));
    assert_eq!(panel.operand(&record[..5], Side::Left), Err(Refusal::NoTree));
}

#[test]
fn places_hold_trees_under_changing_sheets() {
    let mut panel = panel_with_sheet_a();
    let row = [0x80, 0, 0x81, 1, 0x82];
    panel.put_row(3, &row).unwrap();
    let kept = panel.clone();
    panel.stage(2, &[0, 0, 1, 0, 1, 2, 1, 1, 2, 0, 0]).unwrap();
    panel.switch().unwrap();
    assert_eq!(panel.fetch_record(3).unwrap(), [1, 0, 0x80, 0x81, 0x82]);
    assert_eq!(kept.fetch_record(3).unwrap(), [0, 0x80, 1, 0x81, 0x82]);
    assert_eq!(panel.fetch_row(3).unwrap(), row);
    assert_eq!(panel.image(3).unwrap()[..6], [5, 1, 0, 0x80, 0x81, 0x82]);
    assert_eq!(panel.image(0), Ok([0; IMAGE_BYTES]));
    assert_eq!((panel.stage(1, &[INFIX, 2, 0, 0]), panel.switch()), (Ok(()), Err(Refusal::InUse)));
    assert_eq!(panel.fetch_row(PLACES), Err(Refusal::Place));
    assert_eq!((panel.drop_place(3), panel.drop_place(3)), (Ok(()), Err(Refusal::Empty)));
    assert_eq!(format!("{kept:?}"), "Panel { operators: 2, held: [(3, [0, 128, 1, 129, 130])] }");
}

#[test]
fn refusals_speak() {
    let error: Box<dyn std::error::Error> = Box::new(Panel::new().build(&[0x80, 0, 0x81]).unwrap_err());
    assert!(error.to_string().starts_with("stranger: "));
}
