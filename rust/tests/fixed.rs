//! Every call with arrays of fixed length alone: what the library gives without its feature `alloc`.
use tihvomen::{
    explain, explain_into, explain_rules, explain_rules_into, Panel, Refusal, Rule, Side, UnknownNumber, IMAGE_BYTES,
    INFIX, MOST_REPLY, MOST_TOKENS, PLACES, PREFIX,
};

/// Two infix operators: 01 over 00, each left with itself.
const SHEET_A: [u8; 11] = [0, 0, 1, 1, 0, 2, 1, 1, 2, 0, 0];

/// Case 5, as a row and as a record.
const ROW: [u8; 7] = [0x20, 0x80, 0, 0x81, 0x21, 1, 0x82];
const RECORD: [u8; 6] = [1, 0x20, 0, 0x80, 0x81, 0x82];

/// Sheet A, and case 5 at place 3.
fn panel() -> Panel {
    let mut panel = Panel::new();
    panel.stage(2, &SHEET_A).unwrap();
    panel.switch().unwrap();
    panel.put_row(3, &ROW).unwrap();
    panel
}

/// The call writes this to the front of an output that has room for all answers, and nothing past it.
fn writes(expected: &[u8], call: impl FnOnce(&mut [u8]) -> Result<usize, Refusal>) {
    let mut out = [0x5a; IMAGE_BYTES];
    assert_eq!(call(&mut out), Ok(expected.len()));
    assert_eq!(out[..expected.len()], *expected);
    assert!(out[expected.len()..].iter().all(|&byte| byte == 0x5a));
}

#[test]
fn sheets_and_places() {
    let mut panel = panel();
    assert_eq!(panel.operators(), 2);
    writes(&RECORD, |out| panel.fetch_record_into(3, out));
    writes(&ROW, |out| panel.fetch_row_into(3, out));
    let mut image = [0; IMAGE_BYTES];
    image[0] = 6;
    image[1..7].copy_from_slice(&RECORD);
    assert_eq!(panel.image(3), Ok(image));
    writes(&image, |out| panel.image_into(3, out));

    let rules = [Rule::priority(1, 0), Rule::left(1, 1), Rule::left(0, 0)];
    let mut by_list = Panel::default();
    by_list.stage_rules(2, &[INFIX, INFIX], &rules).unwrap();
    by_list.switch().unwrap();
    by_list.put_record(3, &RECORD).unwrap();
    assert_eq!(by_list, panel);
    assert_eq!(by_list.put_claim(3, &ROW[1..4], &RECORD[2..5]), Ok(()));
    assert_eq!(by_list.put_claim(3, &ROW, &RECORD[2..5]), Err(Refusal::OtherRow));
    assert_eq!(by_list.put_claim(3, &ROW, &RECORD), Ok(()));
    assert_eq!(by_list, panel);

    assert_eq!(panel.fetch_record_into(3, &mut [0; 5]), Err(Refusal::Short));
    assert_eq!((panel.stage(1, &[INFIX, 2, 0, 0]), panel.switch()), (Ok(()), Err(Refusal::InUse)));
    assert_eq!(panel.stage_rules(2, &[PREFIX, INFIX], &[Rule::priority(0, 1), rules[1]]), Ok(()));
    assert_eq!(panel.switch(), Err(Refusal::InUse));
    assert_eq!((panel.drop_place(3), panel.drop_place(3)), (Ok(()), Err(Refusal::Empty)));
    assert_eq!(panel.image(3), Ok([0; IMAGE_BYTES]));
    assert_eq!((panel.switch(), panel.switch()), (Ok(()), Err(Refusal::NothingStaged)));
    assert_eq!(panel.stage_rules(1, &[INFIX], &[Rule::left(0, 0), Rule::right(0, 0)]), Err(Refusal::Dead));
    assert_eq!(panel.stage_rules(1, &[INFIX], &[Rule::right(0, 0)]), Ok(()));
    for kinds in [&[][..], &[INFIX, INFIX], &[9, 9]] {
        assert_eq!(panel.stage_rules(1, kinds, &[Rule::left(0, 9)]), Err(Refusal::Torn));
    }
    assert_eq!(panel.stage_rules(1, &[9], &[Rule::left(0, 0)]), Err(Refusal::Stranger));
    assert_eq!(panel.stage_rules(1, &[PREFIX], &[]), Ok(()));
}

#[test]
fn rows_and_records() {
    let panel = panel();
    // 00 below 01, without the bracket.
    let conflicting = [1, 0, 0x80, 0x81, 0x82];
    writes(&RECORD, |out| panel.build_into(&ROW, out));
    writes(&[0, 0x80, 1, 0x81, 0x82], |out| panel.repair_into(&conflicting, out));
    writes(&ROW, |out| panel.yield_row_into(&RECORD, out));
    writes(&[0x80], |out| panel.shortest_row_into(&[0x20, 0x80], out));
    assert_eq!((panel.judge(&RECORD), panel.judge(&conflicting)), (Ok(0), Ok(1)));
    assert_eq!(panel.judge(&[0x80, 0x81]), Err(Refusal::NoTree));
}

#[test]
fn an_operand_of_each_side() {
    let panel = panel();
    let record = &RECORD[..];
    let sides = |record| [panel.operand(record, Side::Left), panel.operand(record, Side::Right)];
    assert_eq!(sides(record), [Ok(&record[1..5]), Ok(&record[5..])]);
    assert_eq!(sides(&record[1..5]), [Ok(&record[2..5]), Ok(&[])]);
    assert_eq!(sides(&record[2..5]), [Ok(&record[3..4]), Ok(&record[4..5])]);
    assert_eq!(sides(&record[5..]), [Ok(&[][..]), Ok(&[])]);
    assert_eq!(sides(&record[..5]), [Err(Refusal::NoTree); 2]);
    // What is answered is a part of the record that was lent, not a copy.
    let [left, right] = sides(record).map(Result::unwrap);
    assert!(std::ptr::eq(left, &record[1..5]) && std::ptr::eq(right, &record[5..]));
}

#[test]
fn values() {
    let panel = panel();
    // (a + b) < c
    let meanings = [6, 3];
    assert_eq!(panel.evaluate(3, &meanings, &[1, 2, 4]), Ok(1));
    assert_eq!(panel.evaluate(3, &meanings, &[1, 2, 3]), Ok(0));
    assert_eq!(panel.evaluate(3, &meanings[..1], &[1, 2, 3]), Err(Refusal::NoMeaning));
    assert_eq!(panel.evaluate(3, &meanings, &[1, 2]), Err(Refusal::NoReading));
    assert_eq!(panel.evaluate(4, &meanings, &[1, 2, 3]), Err(Refusal::Empty));
}

/// Under the first sheet all is well; the second has a rule too many, the third none.
#[test]
fn explanations() {
    let both_ways = [Rule::left(0, 0), Rule::right(0, 0)];
    writes(&[0], |out| explain_into(2, &SHEET_A, out));
    writes(&[4, 0x80, 0, 0x81, 0, 0x82], |out| explain_rules_into(1, &[INFIX], &both_ways, out));
    let double = [5, 0x80, 0, 0x81, 0, 0x82, 0, 0x80, 0, 0x81, 0x82, 0, 0, 0x80, 0x81, 0x82];
    writes(&double, |out| explain_into(1, &[INFIX], out));
    let explanation = explain(1, &[INFIX]).unwrap();
    assert_eq!((explanation.verdict(), explanation.row()), (Err(Refusal::Double), &double[1..6]));
    assert_eq!(explanation.records(), Some([&double[6..11], &double[11..]]));
    assert_eq!(explain_rules(1, &[INFIX], &[]), Ok(explanation));
    assert_eq!(explain(1, &[INFIX, 2]), Err(Refusal::Torn));
}

/// The reply stands at the front of the output, which is otherwise as it was.
#[test]
fn lines() {
    let mut panel = Panel::new();
    let mut out = [b'?'; MOST_REPLY];
    assert_eq!(panel.reply_into(b"0a", &mut out), "0f");
    assert_eq!(panel.reply_into(b"01020000010100020101020000", &mut out), "00");
    assert_eq!(panel.reply_into(b"0A", &mut out), "00");
    assert_eq!(panel.reply_into(b"020320800081210182", &mut out), "00");
    assert_eq!(panel.reply_into(b"0403", &mut out), "00012000808182");
    assert_eq!(panel.reply_into(b"0400", &mut out), "09");
    assert_eq!(panel.reply_into(b"", &mut out), "0c");
    assert_eq!(out[..14], *b"0c012000808182");
    assert_eq!(out[14..], [b'?'; MOST_REPLY - 14]);
    let image = panel.reply_into(b"0903", &mut out);
    assert_eq!((image.len(), &image[..16]), (MOST_REPLY, "0006012000808182"));
    assert_eq!(panel, self::panel());
}

#[test]
fn numbers() {
    for number in 0..=u8::MAX {
        let known = (1..=17).contains(&number);
        assert_eq!(Refusal::try_from(number).is_ok(), known);
        assert_eq!(Refusal::try_from(number).map_or_else(|unknown| unknown.0, Refusal::number), number);
    }
    assert_eq!(Refusal::try_from(0), Err(UnknownNumber(0)));
    let error: &dyn std::error::Error = &UnknownNumber(18);
    assert_eq!(error.to_string(), "18 is the number of no refusal");
    let error: &dyn std::error::Error = &Refusal::Place;
    assert_eq!(error.to_string(), "place: there are places 0 to 15 only");
}

#[test]
fn debug_shows_what_is_held() {
    let mut panel = panel();
    panel.put_row(PLACES - 1, &[0xff]).unwrap();
    let shown = "Panel { operators: 2, held: [(3, [1, 32, 0, 128, 129, 130]), (15, [255])] }";
    assert_eq!(format!("{panel:?}"), shown);
    assert_eq!(format!("{:?}", Panel::new()), "Panel { operators: 0, held: [] }");
    // The longest record, at every place.
    let mut row = [0x80; MOST_TOKENS];
    row.iter_mut().skip(1).step_by(2).for_each(|token| *token = 0);
    (0..PLACES).for_each(|place| panel.put_row(place, &row).unwrap());
    assert_eq!(format!("{panel:?}").matches("128").count(), usize::from(PLACES) * 128);
}
