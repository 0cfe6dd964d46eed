//! Why a sheet is refused: the first bit that shows it, found a word at a time.
use super::sheet::{self, Sheet};
use super::Answer;

/// The answer for a sheet of n operators, n kind bytes and rules.
#[inline(never)]
pub fn explain(n: u8, bytes: &[u8], out: &mut [u8]) -> Answer {
    let sheet = sheet::read(n, bytes)?;
    let infix = sheet.infix();
    let rows = || sheet.closes.iter().zip(&sheet.open).take(n.into());
    if let Some((a, b)) = first(rows().map(|(closes, open)| closes & open)) {
        let Row { before, x, y, .. } = Row::of(&sheet, a);
        return write(&[&[4], before, &[a, x, b, y]], out);
    }
    if let Some((a, b)) = first(rows().map(|(closes, open)| infix & !(closes | open))) {
        let Row { before, x, y, .. } = Row::of(&sheet, a);
        return write(&[&[5], before, &[a, x, b, y, a], before, &[b, x, y, b, a], before, &[x, y]], out);
    }
    for a in 0..n {
        let of_a = sheet.closes[usize::from(a)];
        let uneven = |b: u8| {
            let of_b = sheet.closes[usize::from(b)];
            let (inner, outer) = if of_a >> b & 1 == 1 { (of_b, of_a) } else { (of_a, of_b) };
            inner & !outer & (infix >> b & 1).wrapping_neg()
        };
        if let Some((b, c)) = first((0..n).map(uneven)) {
            let Row { before, x, y, z } = Row::of(&sheet, a);
            let row = [a, x, b, y, c, z, a];
            return match of_a >> b & 1 {
                1 => write(&[&[5], before, &row, before, &[c, b, x, y, z, c, b, a], before, &[x, y, z]], out),
                _ => write(&[&[5], before, &row, before, &[b, x, c, y, z, c, a], before, &[b, x, y, z]], out),
            };
        }
    }
    write(&[&[0]], out)
}

/// The first word that is not 0, and its lowest bit.
#[inline]
fn first(words: impl Iterator<Item = u32>) -> Option<(u8, u8)> {
    (0..).zip(words).find(|(_, word)| *word != 0).map(|(at, word)| (at, word.trailing_zeros() as u8))
}

/// The readings of a row: the one before its first operator, if that is infix, and those behind the operators.
struct Row {
    before: &'static [u8],
    x: u8,
    y: u8,
    z: u8,
}

impl Row {
    fn of(sheet: &Sheet, first: u8) -> Row {
        match sheet.is_prefix(first) {
            true => Row { before: &[], x: 0x80, y: 0x81, z: 0x82 },
            false => Row { before: &[0x80], x: 0x81, y: 0x82, z: 0x83 },
        }
    }
}

/// Writes the parts one after the other.
fn write(parts: &[&[u8]], out: &mut [u8]) -> Answer {
    let length = parts.iter().map(|part| part.len()).sum();
    let mut rest = out.get_mut(..length).ok_or(10)?;
    for part in parts {
        let (front, back) = rest.split_at_mut(part.len());
        front.copy_from_slice(part);
        rest = back;
    }
    Ok(length)
}
