//! A random call, and the same call made to the library.
use crate::book::{Book, Call, Reply};
use crate::inputs;
use crate::random::Random;
use crate::stagings;
use crate::tree::{Side, INFIX, PREFIX};
use tihvomen::{Panel, Refusal};

/// A call that makes sense to try on the panel that the book stands for. `last` is an earlier call's answer.
pub fn any_call(random: &mut Random, book: &Book, last: &[u8]) -> Call {
    let mut call = match random.below(42) {
        0..=2 => {
            let staging = stagings::any(random, &book.kinds_in_use());
            Call::Stage { n: staging.n, bytes: staging.bytes() }
        }
        3..=8 if book.staged.is_some() || random.once_in(4) => Call::Switch,
        3..=10 => Call::PutRow { place: place(random, book), row: row(random, book, last) },
        11..=13 => Call::PutRecord { place: place(random, book), record: record(random, book, last) },
        14 => Call::Drop { place: place(random, book) },
        15 | 16 => Call::FetchRecord { place: place(random, book), room: usize::MAX },
        17 | 18 => Call::FetchRow { place: place(random, book), room: usize::MAX },
        19 => Call::Image { place: place(random, book), room: usize::MAX },
        20..=22 => Call::Build { row: row(random, book, last), room: usize::MAX },
        23 | 24 => Call::Repair { record: record(random, book, last), room: usize::MAX },
        25 | 26 => Call::Yield { record: record(random, book, last), room: usize::MAX },
        27 | 28 => Call::Judge { record: record(random, book, last) },
        29 | 30 => Call::ShortestRow { record: record(random, book, last), room: usize::MAX },
        31..=34 => {
            let meanings = inputs::meanings(random, &book.sheet.kinds);
            let readings = inputs::readings(random);
            Call::Evaluate { place: place(random, book), meanings, readings }
        }
        35 | 36 => Call::Powers { operator: operator(random, book) },
        37..=40 => {
            let (row, record) = claim(random, book, last);
            Call::PutClaim { place: place(random, book), row, record }
        }
        _ => {
            let side = [Side::Left, Side::Right][random.below(2)];
            Call::Operand { record: record(random, book, last), side }
        }
    };
    if room_of(&mut call).is_some() {
        let length = book.reply(&call).answer.len();
        *room_of(&mut call).unwrap() = any_room(random, length);
    }
    call
}

/// The length of the lent output, where the call has one.
fn room_of(call: &mut Call) -> Option<&mut usize> {
    match call {
        Call::FetchRecord { room, .. }
        | Call::FetchRow { room, .. }
        | Call::Image { room, .. }
        | Call::Build { room, .. }
        | Call::Repair { room, .. }
        | Call::Yield { room, .. }
        | Call::ShortestRow { room, .. } => Some(room),
        _ => None,
    }
}

/// Just enough, more, one too short, or any length.
fn any_room(random: &mut Random, length: usize) -> usize {
    match random.below(8) {
        0 => length.saturating_sub(1),
        1 => random.below(300),
        2 | 3 => length + random.below(40),
        4 => 300,
        _ => length,
    }
}

/// A place that is filled, if there is one; or any, or none at all.
fn place(random: &mut Random, book: &Book) -> u8 {
    let filled: Vec<u8> = (0..16).filter(|&place| book.slots[usize::from(place)].is_some()).collect();
    match random.below(16) {
        0 => random.byte(),
        1 => 15 + random.below(2) as u8,
        2..=8 if !filled.is_empty() => filled[random.below(filled.len())],
        _ => random.below(16) as u8,
    }
}

/// An operator of the sheet, if it has any; or the one after the last, or any byte.
fn operator(random: &mut Random, book: &Book) -> u8 {
    let n = book.sheet.n();
    match random.below(12) {
        0 => random.byte(),
        1 => n,
        2 => 31 + random.below(2) as u8,
        _ => random.below(n.into()) as u8,
    }
}

/// The kinds of the operators that an input uses: the sheet's; now and then one operator more, or one of another kind.
fn kinds(random: &mut Random, book: &Book) -> Vec<u8> {
    let mut kinds = book.sheet.kinds.clone();
    let at = random.below(kinds.len());
    match random.below(24) {
        0 | 1 if kinds.len() < 32 => kinds.push(random.below(2) as u8),
        2 if !kinds.is_empty() => kinds[at] ^= INFIX ^ PREFIX,
        _ => (),
    }
    kinds
}

fn row(random: &mut Random, book: &Book, last: &[u8]) -> Vec<u8> {
    if random.once_in(10) {
        return last.to_vec();
    }
    let kinds = kinds(random, book);
    let row = inputs::any_tree(random, &kinds).row();
    inputs::perhaps_damaged(random, row)
}

fn record(random: &mut Random, book: &Book, last: &[u8]) -> Vec<u8> {
    if random.once_in(10) {
        return last.to_vec();
    }
    let kinds = kinds(random, book);
    let record = inputs::any_tree(random, &kinds).record();
    inputs::perhaps_damaged(random, record)
}

/// A row with a record that is claimed for it.
fn claim(random: &mut Random, book: &Book, last: &[u8]) -> (Vec<u8>, Vec<u8>) {
    let kinds = kinds(random, book);
    let built = |row: &[u8]| book.reply(&Call::Build { row: row.to_vec(), room: usize::MAX }).answer;
    let (row, record) = inputs::claim(random, &kinds, built);
    match random.below(20) {
        0 => (last.to_vec(), record),
        1 => (row, last.to_vec()),
        _ => (row, record),
    }
}

/// Makes the call to the library. The whole lent output is checked: the answer, then what stood there before.
pub fn make(random: &mut Random, panel: &mut Panel, call: &Call) -> Reply {
    match call {
        Call::Stage { n, bytes } => silent(panel.stage(*n, bytes)),
        Call::Switch => silent(panel.switch()),
        Call::PutRow { place, row } => silent(panel.put_row(*place, row)),
        Call::PutRecord { place, record } => silent(panel.put_record(*place, record)),
        Call::PutClaim { place, row, record } => silent(panel.put_claim(*place, row, record)),
        Call::Drop { place } => silent(panel.drop_place(*place)),
        Call::FetchRecord { place, room } => written(random, *room, |out| panel.fetch_record_into(*place, out)),
        Call::FetchRow { place, room } => written(random, *room, |out| panel.fetch_row_into(*place, out)),
        Call::Image { place, room } => written(random, *room, |out| panel.image_into(*place, out)),
        Call::Build { row, room } => written(random, *room, |out| panel.build_into(row, out)),
        Call::Repair { record, room } => written(random, *room, |out| panel.repair_into(record, out)),
        Call::Yield { record, room } => written(random, *room, |out| panel.yield_row_into(record, out)),
        Call::ShortestRow { record, room } => written(random, *room, |out| panel.shortest_row_into(record, out)),
        Call::Judge { record } => reply(panel.judge(record).map(|count| (vec![count], 0))),
        Call::Evaluate { place, meanings, readings } => {
            let value = panel.evaluate(*place, meanings, readings);
            reply(value.map(|value| (value.to_be_bytes().to_vec(), 0)))
        }
        Call::Powers { operator } => reply(panel.powers(*operator).map(|powers| (vec![powers.left, powers.right], 0))),
        Call::Operand { record, side } => {
            let side = if *side == Side::Left { tihvomen::Side::Left } else { tihvomen::Side::Right };
            let offset = |part: &[u8]| (part.as_ptr() as usize) - (record.as_ptr() as usize);
            reply(panel.operand(record, side).map(|part| (part.to_vec(), offset(part))))
        }
    }
}

fn silent(result: Result<(), Refusal>) -> Reply {
    reply(result.map(|()| (Vec::new(), 0)))
}

fn written(random: &mut Random, room: usize, call: impl FnOnce(&mut [u8]) -> Result<usize, Refusal>) -> Reply {
    let before = random.bytes(room);
    let mut out = before.clone();
    let result = call(&mut out);
    let length = result.unwrap_or(0);
    assert_eq!(out[length..], before[length..], "the output past the answer was written");
    reply(result.map(|length| (out[..length].to_vec(), 0)))
}

fn reply(result: Result<(Vec<u8>, usize), Refusal>) -> Reply {
    match result {
        Ok((answer, offset)) => Reply { number: 0, answer, offset },
        Err(refusal) => Reply { number: refusal.number(), answer: Vec::new(), offset: 0 },
    }
}
