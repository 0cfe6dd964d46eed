//! Whole runs from a fresh panel, held against the book at every call.
use crate::book::{Book, Call, Reply};
use crate::calls;
use crate::histories::Histories;
use crate::random::Random;
use crate::stagings;
use tihvomen::Panel;

/// The calls' names, in the order of `kind`, and the numbers that each can give.
pub const KINDS: [(&str, &[u8]); 17] = [
    ("stage", &[0, 1, 2, 3, 4, 5]),
    ("put row", &[0, 1, 3, 6, 8]),
    ("put record", &[0, 1, 3, 7, 8]),
    ("drop", &[0, 8, 9]),
    ("fetch record", &[0, 8, 9, 10]),
    ("fetch row", &[0, 8, 9, 10]),
    ("image", &[0, 8, 10]),
    ("build", &[0, 1, 3, 6, 10]),
    ("repair", &[0, 1, 3, 7, 10]),
    ("yield", &[0, 1, 3, 7, 10]),
    ("judge", &[0, 1, 3, 7]),
    ("operand", &[0, 1, 3, 7]),
    ("shortest row", &[0, 1, 3, 7, 10]),
    ("evaluate", &[0, 8, 9, 13, 14]),
    ("switch", &[0, 11, 15]),
    ("powers", &[0, 3]),
    ("put claim", &[0, 1, 3, 6, 7, 8, 16, 17]),
];

/// There are numbers from 0 up to this.
pub const NUMBERS: usize = 18;

/// How often each kind of call gave each number.
pub type Tally = [[usize; NUMBERS]; KINDS.len()];

fn kind(call: &Call) -> usize {
    match call {
        Call::Stage { .. } => 0,
        Call::PutRow { .. } => 1,
        Call::PutRecord { .. } => 2,
        Call::Drop { .. } => 3,
        Call::FetchRecord { .. } => 4,
        Call::FetchRow { .. } => 5,
        Call::Image { .. } => 6,
        Call::Build { .. } => 7,
        Call::Repair { .. } => 8,
        Call::Yield { .. } => 9,
        Call::Judge { .. } => 10,
        Call::Operand { .. } => 11,
        Call::ShortestRow { .. } => 12,
        Call::Evaluate { .. } => 13,
        Call::Switch => 14,
        Call::Powers { .. } => 15,
        Call::PutClaim { .. } => 16,
    }
}

/// One run of so many calls.
pub fn run(seed: u64, calls: usize, tally: &mut Tally, histories: &mut Histories) {
    histories.begin();
    let mut random = Random::new(seed);
    let mut panel = Panel::new();
    let mut book = Book::new();
    let mut last = Vec::new();
    for step in 0..calls {
        let call = match step {
            // Without operators there is little to see: the first calls stage a sheet that is accepted, and switch it in.
            0 => {
                let n = random.below(33).min(1 + random.below(33)) as u8;
                Call::Stage { n, bytes: stagings::good(&mut random, n).bytes() }
            }
            1 => Call::Switch,
            _ => calls::any_call(&mut random, &book, &last),
        };
        let expected = book.reply(&call);
        let before = panel.clone();
        let reply = calls::make(&mut random, &mut panel, &call);
        assert!(
            same(&expected, &reply),
            "run {seed}, call {step}: {call:02x?}\nexpected {expected:02x?}\ngot {reply:02x?}"
        );
        tally[kind(&call)][usize::from(reply.number)] += 1;
        histories.note(&call, reply.number);
        if reply.number != 0 {
            assert!(panel == before, "run {seed}, call {step}: a refused call changed the panel: {call:02x?}");
        }
        book.note(&call, reply.number);
        check_panel(&book, &before, &panel, &call, reply.number);
        if !reply.answer.is_empty() && reply.answer.len() < 256 {
            last = reply.answer;
        }
    }
}

/// An empty part stands nowhere.
fn same(expected: &Reply, reply: &Reply) -> bool {
    let offset = reply.answer.is_empty() || reply.offset == expected.offset;
    reply.number == expected.number && reply.answer == expected.answer && offset
}

/// The places are what the book says: all of them after a switch, the one that was written after a put or a drop; after a staging
/// they are as before.
fn check_panel(book: &Book, before: &Panel, panel: &Panel, call: &Call, number: u8) {
    if number != 0 {
        return;
    }
    assert_eq!(panel.operators(), book.sheet.n());
    let written = match call {
        Call::Stage { .. } => 0..0,
        Call::Switch => 0..16,
        Call::PutRow { place, .. }
        | Call::PutRecord { place, .. }
        | Call::PutClaim { place, .. }
        | Call::Drop { place } => *place..*place + 1,
        _ => return assert!(panel == before, "a call that only reads changed the panel: {call:02x?}"),
    };
    if let Call::PutClaim { place, record, .. } = call {
        assert_eq!(panel.fetch_record(*place).as_ref(), Ok(record), "a claim is not held as sent: {call:02x?}");
    }
    for place in 0..16 {
        let slot = &book.slots[usize::from(place)];
        if written.contains(&place) {
            assert_eq!(
                panel.image(place).unwrap()[..],
                book.image(slot),
                "the image of place {place} after {call:02x?}"
            );
            assert_eq!(panel.fetch_row(place).ok(), *slot, "the row of place {place} after {call:02x?}");
        } else {
            assert_eq!(panel.image(place), before.image(place), "place {place} was changed by {call:02x?}");
        }
    }
}
