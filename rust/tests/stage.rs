//! Stage, then switch: what is staged, what a switch puts in force, and what neither changes.
//!
//! "Staging judges a sheet and keeps it beside the one in force; switching puts the staged sheet in force and empties the stage."
use tihvomen::{Panel, Refusal, Rule, INFIX, MOST_REPLY, PLACES, PREFIX};

/// Two infix operators, each left with itself: 01 over 00, and the other way round.
const SHEET_A: [u8; 11] = [0, 0, 1, 1, 0, 2, 1, 1, 2, 0, 0];
const TURNED: [u8; 11] = [0, 0, 1, 0, 1, 2, 1, 1, 2, 0, 0];

/// One infix operator, left with itself.
const ONE: [u8; 4] = [0, 2, 0, 0];

/// The row has the first record under sheet A, and the second under the turned one.
const ROW: [u8; 5] = [0x80, 0, 0x81, 1, 0x82];
const UNDER_A: [u8; 5] = [0, 0x80, 1, 0x81, 0x82];
const UNDER_TURNED: [u8; 5] = [1, 0, 0x80, 0x81, 0x82];

/// Sheet A in force, and the row at place 3.
fn panel() -> Panel {
    let mut panel = Panel::new();
    panel.stage(2, &SHEET_A).unwrap();
    panel.switch().unwrap();
    panel.put_row(3, &ROW).unwrap();
    panel
}

/// The place holds the tree of this record.
fn holds(panel: &Panel, place: u8, record: &[u8]) -> bool {
    let mut out = [0; 255];
    panel.fetch_record_into(place, &mut out).map(|length| &out[..length]) == Ok(record)
}

/// A call that is refused with this number, after which every byte of the panel is as before.
fn refused(panel: &mut Panel, refusal: Refusal, call: impl FnOnce(&mut Panel) -> Result<(), Refusal>) {
    let before = panel.clone();
    assert_eq!(call(panel), Err(refusal));
    assert_eq!(*panel, before, "{refusal:?} changed the panel");
}

/// Every refusal of a staging, in both forms.
fn refuse_stagings(panel: &mut Panel) {
    refused(panel, Refusal::Oversize, |panel| panel.stage(33, &[]));
    refused(panel, Refusal::Torn, |panel| panel.stage(2, &[INFIX]));
    refused(panel, Refusal::Stranger, |panel| panel.stage(1, &[PREFIX + 1]));
    refused(panel, Refusal::Dead, |panel| panel.stage(1, &[INFIX, 2, 0, 0, 3, 0, 0]));
    refused(panel, Refusal::Double, |panel| panel.stage(1, &[INFIX]));
    refused(panel, Refusal::Oversize, |panel| panel.stage_rules(33, &[], &[]));
    refused(panel, Refusal::Torn, |panel| panel.stage_rules(2, &[INFIX], &[]));
    refused(panel, Refusal::Stranger, |panel| panel.stage_rules(1, &[INFIX], &[Rule::left(0, 1)]));
    refused(panel, Refusal::Dead, |panel| panel.stage_rules(1, &[INFIX], &[Rule::left(0, 0), Rule::right(0, 0)]));
    refused(panel, Refusal::Double, |panel| panel.stage_rules(1, &[INFIX], &[]));
}

/// "Switching gives 15, nothing staged": at first, after a refused staging, and after a switch.
#[test]
fn nothing_staged() {
    let mut panel = Panel::new();
    refused(&mut panel, Refusal::NothingStaged, Panel::switch);
    refuse_stagings(&mut panel);
    refused(&mut panel, Refusal::NothingStaged, Panel::switch);
    let mut panel = self::panel();
    refused(&mut panel, Refusal::NothingStaged, Panel::switch);
    panel.stage(2, &TURNED).unwrap();
    panel.switch().unwrap();
    refused(&mut panel, Refusal::NothingStaged, Panel::switch);
    assert!(holds(&panel, 3, &UNDER_TURNED));
}

/// "A refused staging leaves the earlier staged sheet."
#[test]
fn refused_stagings() {
    let mut panel = panel();
    panel.stage(2, &TURNED).unwrap();
    refuse_stagings(&mut panel);
    panel.switch().unwrap();
    assert!(holds(&panel, 3, &UNDER_TURNED));
    // The same after an accepted staging in the other form.
    panel.stage_rules(2, &[INFIX; 2], &[Rule::priority(1, 0), Rule::left(0, 0), Rule::left(1, 1)]).unwrap();
    refuse_stagings(&mut panel);
    panel.switch().unwrap();
    assert!(holds(&panel, 3, &UNDER_A));
}

/// "No staging changes a held tree"; all other calls go by the sheet in force.
#[test]
fn stagings_are_not_seen() {
    let mut panel = panel();
    let before = panel.clone();
    for (n, sheet) in [(2, &TURNED[..]), (1, &ONE), (0, &[]), (3, &[PREFIX; 3])] {
        // Never 11, whatever the held tree uses.
        assert_eq!(panel.stage(n, sheet), Ok(()));
        assert_eq!(panel.operators(), 2);
        assert!((0..PLACES).all(|place| panel.image(place) == before.image(place)));
        assert!(holds(&panel, 3, &UNDER_A));
        let mut row = [0; 5];
        assert_eq!((panel.fetch_row_into(3, &mut row), row), (Ok(5), ROW));
        // What is put is judged and built by sheet A, and so is what is lent.
        assert_eq!((panel.put_row(4, &ROW), panel.put_record(5, &UNDER_TURNED)), (Ok(()), Ok(())));
        assert!(holds(&panel, 4, &UNDER_A) && holds(&panel, 5, &UNDER_A));
        assert_eq!(panel.put_row(6, &[0x80, 2, 0x81]), Err(Refusal::Stranger));
        assert_eq!(panel.put_claim(6, &ROW, &UNDER_TURNED), Err(Refusal::Conflict));
        assert_eq!(panel.put_claim(4, &ROW, &UNDER_A), Ok(()));
        assert_eq!((panel.judge(&UNDER_A), panel.judge(&UNDER_TURNED)), (Ok(0), Ok(1)));
        let mut record = [0; 5];
        assert_eq!((panel.build_into(&ROW, &mut record), record), (Ok(5), UNDER_A));
        // 1 + (2 less 3); by the turned sheet it is (1 + 2) less 3, which is 0.
        assert_eq!(panel.evaluate(3, &[6, 3], &[1, 2, 3]), Ok(2));
        assert_eq!((panel.drop_place(4), panel.drop_place(5)), (Ok(()), Ok(())));
    }
}

/// "Then 11": the staged sheet against the held trees as they are at the switch. A refused switch leaves the staged sheet.
#[test]
fn refused_switches() {
    let mut panel = panel();
    panel.put_row(7, &[0x80, 1, 0x81]).unwrap();
    panel.stage(1, &ONE).unwrap();
    for place in [3, 7] {
        refused(&mut panel, Refusal::InUse, Panel::switch);
        panel.drop_place(place).unwrap();
    }
    panel.put_row(0, &[0x80, 0, 0x81]).unwrap();
    assert_eq!((panel.switch(), panel.operators()), (Ok(()), 1));
    assert!(holds(&panel, 0, &[0, 0x80, 0x81]));
    // A staging between two switches: what is switched in is what was staged last.
    panel.stage(1, &[PREFIX]).unwrap();
    refused(&mut panel, Refusal::InUse, Panel::switch);
    panel.stage(2, &SHEET_A).unwrap();
    assert_eq!((panel.switch(), panel.operators()), (Ok(()), 2));
    refused(&mut panel, Refusal::NothingStaged, Panel::switch);
}

/// What a put uses after the staging counts at the switch, by the kinds of the sheet in force.
#[test]
fn puts_between() {
    let mut panel = panel();
    panel.drop_place(3).unwrap();
    panel.stage(2, &[INFIX, PREFIX, 2, 0, 0, 1, 1, 0]).unwrap();
    panel.put_row(3, &[0x80, 1, 0x81]).unwrap();
    refused(&mut panel, Refusal::InUse, Panel::switch);
    panel.put_row(3, &[0x80, 0, 0x81]).unwrap();
    assert_eq!(panel.put_row(4, &[1, 0x80, 0, 0x81]), Err(Refusal::NoRow));
    panel.switch().unwrap();
    panel.put_row(4, &[1, 0x80, 0, 0x81]).unwrap();
    assert!(holds(&panel, 3, &[0, 0x80, 0x81]) && holds(&panel, 4, &[0, 1, 0x80, 0x81]));
}

/// A sheet of no operators and no rules is a staged sheet like any other.
#[test]
fn no_operators() {
    for stage in [|panel: &mut Panel| panel.stage(0, &[]), |panel: &mut Panel| panel.stage_rules(0, &[], &[])] {
        let mut panel = Panel::new();
        stage(&mut panel).unwrap();
        assert_eq!(panel.switch(), Ok(()));
        refused(&mut panel, Refusal::NothingStaged, Panel::switch);
        let mut panel = self::panel();
        stage(&mut panel).unwrap();
        refused(&mut panel, Refusal::InUse, Panel::switch);
        panel.put_row(3, &[0x80]).unwrap();
        assert_eq!((panel.switch(), panel.operators()), (Ok(()), 0));
        assert!(holds(&panel, 3, &[0x80]));
        // It is replaced by a sheet staged later, and replaces one staged before.
        stage(&mut panel).unwrap();
        panel.stage(2, &SHEET_A).unwrap();
        assert_eq!((panel.switch(), panel.operators()), (Ok(()), 2));
        panel.stage(2, &TURNED).unwrap();
        stage(&mut panel).unwrap();
        assert_eq!((panel.switch(), panel.operators()), (Ok(()), 0));
    }
}

/// Line kind 01 stages; "a new kind 0A, one byte long, switches and answers 00 alone".
#[test]
fn lines() {
    let (mut by_lines, mut by_calls) = (Panel::new(), Panel::new());
    let mut out = [0; MOST_REPLY];
    assert_eq!(by_lines.reply_into(b"0a", &mut out), "0f");
    assert_eq!(by_lines.reply_into(b"01020000010100020101020000", &mut out), "00");
    by_calls.stage(2, &SHEET_A).unwrap();
    assert_eq!(by_lines, by_calls);
    for line in ["0a00", "0A0a", "0", "0a0", "a0", "0a\r", " 0a", "0b"] {
        assert_eq!(by_lines.reply_into(line.as_bytes(), &mut out), "0c", "{line}");
    }
    assert_eq!(by_lines, by_calls);
    assert_eq!(by_lines.reply_into(b"0A", &mut out), "00");
    by_calls.switch().unwrap();
    assert_eq!(by_lines, by_calls);
    assert_eq!(by_lines.reply_into(b"0a", &mut out), "0f");
    assert_eq!(by_lines.reply_into(b"0203800181", &mut out), "00");
    assert_eq!(by_lines.reply_into(b"010100020000", &mut out), "00");
    assert_eq!(by_lines.reply_into(b"0a", &mut out), "0b");
}
