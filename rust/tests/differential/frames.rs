//! Lines as documents 01 and 02 have them: the frame of a call, the call of a line, and the reply that the book gives.
use crate::book::{Book, Call};

/// The most characters of a line: kind, n, 32 kind bytes and 6,144 rule bytes, in digit pairs.
pub const MOST_CHARACTERS: usize = 12_356;

/// Room for every answer of a line.
const ROOM: usize = 256;

/// The frame of a call; none for calls that have no kind of line.
pub fn frame(call: &Call) -> Option<Vec<u8>> {
    let named = |kind: u8, name: u8, rest: &[u8]| Some([&[kind, name], rest].concat());
    match call {
        Call::Stage { n, bytes } => named(1, *n, bytes),
        Call::PutRow { place, row } => named(2, *place, row),
        Call::Drop { place } => named(3, *place, &[]),
        Call::FetchRecord { place, .. } => named(4, *place, &[]),
        Call::FetchRow { place, .. } => named(5, *place, &[]),
        Call::PutRecord { place, record } => named(6, *place, record),
        Call::Judge { record } => Some([&[7], &record[..]].concat()),
        Call::Repair { record, .. } => Some([&[8], &record[..]].concat()),
        Call::Image { place, .. } => named(9, *place, &[]),
        Call::Switch => Some(vec![10]),
        Call::PutClaim { .. }
        | Call::Build { .. }
        | Call::Yield { .. }
        | Call::Operand { .. }
        | Call::ShortestRow { .. }
        | Call::Evaluate { .. }
        | Call::Powers { .. } => None,
    }
}

/// The call that the bytes of a line stand for.
fn call_of(bytes: &[u8]) -> Option<Call> {
    let (&kind, rest) = bytes.split_first()?;
    let only = || if rest.len() == 1 { Some(rest[0]) } else { None };
    let named = || rest.split_first().map(|(&name, more)| (name, more.to_vec()));
    match kind {
        1 => named().map(|(n, bytes)| Call::Stage { n, bytes }),
        2 => named().map(|(place, row)| Call::PutRow { place, row }),
        3 => only().map(|place| Call::Drop { place }),
        4 => only().map(|place| Call::FetchRecord { place, room: ROOM }),
        5 => only().map(|place| Call::FetchRow { place, room: ROOM }),
        6 => named().map(|(place, record)| Call::PutRecord { place, record }),
        7 => Some(Call::Judge { record: rest.to_vec() }),
        8 => Some(Call::Repair { record: rest.to_vec(), room: ROOM }),
        9 => only().map(|place| Call::Image { place, room: ROOM }),
        10 => rest.is_empty().then_some(Call::Switch),
        _ => None,
    }
}

/// The bytes of digit pairs, in either letter case.
fn bytes_of(line: &[u8]) -> Option<Vec<u8>> {
    let digits: Option<Vec<u32>> = line.iter().map(|&c| char::from(c).to_digit(16)).collect();
    let digits = digits.filter(|digits| digits.len() % 2 == 0)?;
    Some(digits.chunks(2).map(|pair| (pair[0] * 16 + pair[1]) as u8).collect())
}

/// The line's call, if it is one, and the bytes of its reply.
pub fn expected(book: &Book, line: &[u8]) -> (Option<Call>, Vec<u8>) {
    if line.len() > MOST_CHARACTERS {
        return (None, vec![1]);
    }
    let Some(call) = bytes_of(line).and_then(|bytes| call_of(&bytes)) else {
        return (None, vec![12]);
    };
    let reply = book.reply(&call);
    let bytes = [&[reply.number], &reply.answer[..]].concat();
    (Some(call), bytes)
}
