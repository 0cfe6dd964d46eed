//! Running a condition: one pass from the record's end with a stack of values. No jump depends on a meaning.
use super::sheet::{Sheet, OPENING};

/// For each meaning when it answers 1. The bit's number adds up 1 for a not 0, 2 for b not 0, 4 for a < b, 8 for a = b.
const TRUTHS: [u16; 16] = [0, 0xEEEE, 0x8888, 0xF0F0, 0xFFF0, 0xFF00, 0, 0, 0, 0, 0, 0, 0, 0, 0, 0];

/// The meaning "not" of a prefix operator; the next is "minus".
const NOT: u8 = 10;

/// The value of a held record, or 13 or 14, which are found on the way.
pub fn evaluate(sheet: &Sheet, bytes: &[u8], meanings: &[u8], readings: &[i32]) -> Result<i32, u8> {
    let mut meaning_of = [0; 32];
    for (to, &meaning) in meaning_of.iter_mut().zip(meanings) {
        *to = meaning;
    }
    // The last value, and those below it: a record has at most 128 readings.
    let (mut value, mut below, mut top) = (0, [0; 128], 0usize);
    let (mut meant, mut highest) = (true, 0);
    for &byte in bytes.iter().rev() {
        if byte >= 0x80 {
            below[top & 127] = value;
            top += 1;
            highest = highest.max(byte);
            value = readings.get(usize::from(byte & 0x7F)).copied().unwrap_or(0);
        } else if byte < OPENING && sheet.is_prefix(byte) {
            let meaning = meaning_of[usize::from(byte)];
            meant &= meaning.wrapping_sub(NOT) < 2;
            value = if meaning == NOT { i32::from(value == 0) } else { value.saturating_neg() };
        } else if byte < OPENING {
            top = top.wrapping_sub(1);
            let meaning = meaning_of[usize::from(byte)];
            meant &= meaning.wrapping_sub(1) < 9;
            value = worked_out(meaning, value, below[top & 127]);
        }
    }
    if !meant {
        return Err(13);
    }
    // There is no tree without a reading.
    if usize::from(highest & 0x7F) >= readings.len() {
        return Err(14);
    }
    Ok(value)
}

#[inline]
fn worked_out(meaning: u8, a: i32, b: i32) -> i32 {
    let facts = u32::from(a != 0) | u32::from(b != 0) << 1 | u32::from(a < b) << 2 | u32::from(a == b) << 3;
    let truth = i32::from(TRUTHS[usize::from(meaning & 15)] >> facts & 1);
    // b or, for a difference, -b.
    let minus = -i64::from(meaning == 7);
    let sum = i64::from(a) + ((i64::from(b) ^ minus) - minus);
    let within = sum.clamp(i32::MIN.into(), i32::MAX.into()) as i32;
    let one_of_both = if (a < b) == (meaning == 8) { a } else { b };
    let number = if meaning < 6 { truth } else { within };
    if meaning > 7 {
        one_of_both
    } else {
        number
    }
}
