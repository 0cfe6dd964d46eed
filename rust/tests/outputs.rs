//! Lent outputs: just enough, more, one byte too short, and none.
//!
//! "10: lent output shorter than the answer", after the row's or record's own numbers. "After a refusal, output buffers and panel
//! are untouched. After success, output past the answer's length is untouched."
mod lent;

use lent::lent;
use tihvomen::{Panel, Refusal};

fn panel_with_sheet_a() -> Panel {
    let mut panel = Panel::new();
    panel.stage(2, &[0, 0, 1, 1, 0, 2, 1, 1, 2, 0, 0]).unwrap();
    panel.switch().unwrap();
    panel
}

/// The answer fits from its own length on, and nothing less.
fn fits(answer: &[u8], call: impl Fn(&mut [u8]) -> Result<usize, Refusal>) {
    let length = answer.len();
    for room in [length, length + 1, length + 40] {
        assert_eq!(lent(room, &call).unwrap(), answer);
    }
    for room in [0, length - 1] {
        assert_eq!(lent(room, &call), Err(Refusal::Short));
    }
}

#[test]
fn answers_fit_or_are_refused() {
    let mut panel = panel_with_sheet_a();
    // Case 5; the record is its own repair, since brackets stay.
    let row = [0x20, 0x80, 0, 0x81, 0x21, 1, 0x82];
    let record = [1, 0x20, 0, 0x80, 0x81, 0x82];
    fits(&record, |out| panel.build_into(&row, out));
    fits(&record, |out| panel.repair_into(&record, out));
    fits(&row, |out| panel.yield_row_into(&record, out));
    fits(&[0x80, 0, 0x81, 1, 0x82], |out| panel.yield_row_into(&[1, 0, 0x80, 0x81, 0x82], out));
    fits(&[0x20, 0x80, 0x21], |out| panel.yield_row_into(&[0x20, 0x80], out));
    fits(&row, |out| panel.shortest_row_into(&record, out));
    fits(&[0x80, 0, 0x81, 1, 0x82], |out| panel.shortest_row_into(&[0, 0x20, 0x80, 0x20, 1, 0x81, 0x82], out));
    fits(&[0x80], |out| panel.shortest_row_into(&[0x20, 0x80], out));
    fits(&[0x80], |out| panel.build_into(&[0x80], out));
    fits(&[0x80], |out| panel.repair_into(&[0x80], out));
    fits(&[0x80], |out| panel.yield_row_into(&[0x80], out));

    panel.put_row(3, &row).unwrap();
    fits(&record, |out| panel.fetch_record_into(3, out));
    fits(&row, |out| panel.fetch_row_into(3, out));
    let image = [&[6][..], &record, &[0; 249]].concat();
    fits(&image, |out| panel.image_into(3, out));
    fits(&[0; 256], |out| panel.image_into(4, out));
}

/// Every other number comes before 10.
#[test]
fn short_comes_last() {
    let panel = panel_with_sheet_a();
    let oversize = [0x80; 256];
    for (bytes, row, record) in [
        (&[0x80, 0x81][..], Refusal::NoRow, Refusal::NoTree),
        (&[0x7f], Refusal::Stranger, Refusal::Stranger),
        (&[0x80, 2], Refusal::Stranger, Refusal::Stranger),
        (&[0, 0x80], Refusal::NoRow, Refusal::NoTree),
        (&oversize, Refusal::Oversize, Refusal::Oversize),
    ] {
        assert_eq!(lent(0, |out| panel.build_into(bytes, out)), Err(row));
        assert_eq!(lent(0, |out| panel.repair_into(bytes, out)), Err(record));
        assert_eq!(lent(0, |out| panel.yield_row_into(bytes, out)), Err(record));
        assert_eq!(lent(0, |out| panel.shortest_row_into(bytes, out)), Err(record));
    }
    // 21 has no place in a record.
    assert_eq!(lent(0, |out| panel.repair_into(&[0x21], out)), Err(Refusal::Stranger));
    // "Panel calls test 8 first, then 9"; "a fetch tests 10 after 9, an image 10 after 8".
    assert_eq!(lent(0, |out| panel.fetch_record_into(16, out)), Err(Refusal::Place));
    assert_eq!(lent(0, |out| panel.fetch_row_into(0, out)), Err(Refusal::Empty));
    assert_eq!(lent(0, |out| panel.image_into(16, out)), Err(Refusal::Place));
}
