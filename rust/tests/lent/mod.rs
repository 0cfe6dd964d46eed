//! A lent output between bytes that must not change.
use tihvomen::Refusal;

const BEFORE: u8 = 0x5a;

/// A call that is lent `room` bytes in the middle of some: its result, the answer, and all else as before.
pub fn lent(room: usize, call: impl FnOnce(&mut [u8]) -> Result<usize, Refusal>) -> Result<Vec<u8>, Refusal> {
    let mut bytes = vec![BEFORE; room + 8];
    let result = call(&mut bytes[4..4 + room]);
    let length = result.unwrap_or(0);
    let answer = bytes[4..4 + length].to_vec();
    bytes[4..4 + length].fill(BEFORE);
    assert_eq!(bytes, vec![BEFORE; room + 8], "bytes outside the answer were written");
    result.map(|_| answer)
}
