//! Records: each of check, count and row is one pass. Counts and shortest rows are for sheets of infix operators alone.
use super::sheet::{Sheet, CLOSING, NONE, OPENING, STRANGE};

/// How many tokens the record's row has, or 1, 3, 7 or 1.
pub fn check(sheet: &Sheet, bytes: &[u8]) -> Result<usize, u8> {
    if bytes.len() > 255 {
        return Err(1);
    }
    // How many trees are still to come; below 1 too early is no tree.
    let (mut need, mut lowest) = (1i32, 1);
    let (mut strange, mut brackets) = (0, 0);
    for &byte in bytes {
        lowest = lowest.min(need);
        strange |= sheet.class[usize::from(byte)] | (u8::from(byte == CLOSING) * STRANGE);
        brackets += usize::from(byte == OPENING);
        need += sheet.step(byte);
    }
    if strange & STRANGE != 0 {
        return Err(3);
    }
    if need != 0 || lowest < 1 {
        return Err(7);
    }
    if bytes.len() + brackets > 255 {
        return Err(1);
    }
    Ok(bytes.len() + brackets)
}

/// The conflict count of an accepted record: from the right end, with a stack of the trees' tops.
pub fn conflicts(sheet: &Sheet, bytes: &[u8]) -> u8 {
    let mut tops = [NONE as u8; 256];
    let mut top = 0u8;
    let mut count = 0;
    for &byte in bytes.iter().rev() {
        let operator = byte.min(NONE as u8);
        let left = tops[usize::from(top)];
        let right = tops[usize::from(top.wrapping_sub(1))];
        // Both rows are 0 at NONE, and no row has bit NONE.
        count += u64::from(sheet.open[usize::from(left)]) >> operator & 1;
        count += u64::from(sheet.closes[usize::from(operator)]) >> right & 1;
        top = top.wrapping_sub(u8::from(byte < OPENING).wrapping_sub(u8::from(byte >= 0x80)));
        tops[usize::from(top)] = operator;
    }
    count as u8
}

/// Writes the row of an accepted record at the front of `out`.
pub fn write_row(sheet: &Sheet, bytes: &[u8], out: &mut [u8]) {
    // What follows the operand that is being written: its operator, or a closing bracket.
    let mut after = [0u8; 256];
    let mut top = 0u8;
    let mut at = 0;
    for &byte in bytes {
        if byte < OPENING && !sheet.is_prefix(byte) {
            top += 1;
            after[usize::from(top)] = byte;
            continue;
        }
        out[at] = byte;
        at += 1;
        if byte == OPENING {
            top += 1;
            after[usize::from(top)] = CLOSING;
        }
        if byte <= OPENING {
            continue;
        }
        while top > 0 {
            let next = after[usize::from(top)];
            top -= 1;
            out[at] = next;
            at += 1;
            if next != CLOSING {
                break;
            }
        }
    }
}

/// Writes the shortest row of a conflict-free record: brackets only around operands that show a conflict. Answers its length.
pub fn write_shortest(sheet: &Sheet, bytes: &[u8], out: &mut [u8; 256]) -> usize {
    let mut after = [0u8; 256];
    let mut top = 0u8;
    let mut at = 0u8;
    // The operator above the next operand, and whether that is its right one.
    let (mut above, mut right) = (NONE as u8, true);
    for &byte in bytes {
        if byte < OPENING {
            // Bit NONE of no row is set, and the row NONE is 0.
            let on_left = u64::from(sheet.open[usize::from(byte)]) >> above;
            let on_right = u64::from(sheet.closes[usize::from(above)]) >> byte;
            if (if right { on_right } else { on_left }) & 1 != 0 {
                out[usize::from(at)] = OPENING;
                at += 1;
                top += 1;
                after[usize::from(top)] = CLOSING;
            }
            top += 1;
            after[usize::from(top)] = byte;
            (above, right) = (byte, false);
        } else if byte > OPENING {
            out[usize::from(at)] = byte;
            at += 1;
            while top > 0 {
                let next = after[usize::from(top)];
                top -= 1;
                out[usize::from(at)] = next;
                at += 1;
                if next != CLOSING {
                    (above, right) = (next, true);
                    break;
                }
            }
        }
    }
    usize::from(at)
}

/// The operand of an accepted record's top node.
pub fn operand<'a>(sheet: &Sheet, bytes: &'a [u8], right: bool) -> &'a [u8] {
    match (sheet.step(bytes[0]), right) {
        // An infix operator.
        (1, _) => {
            let mut need = 1;
            let past = bytes[1..].iter().position(|&byte| {
                need += sheet.step(byte);
                need == 0
            });
            let middle = 2 + past.unwrap_or(0);
            if right {
                &bytes[middle..]
            } else {
                &bytes[1..middle]
            }
        }
        // A bracket or a prefix operator.
        (0, false) => &bytes[1..],
        _ => &[],
    }
}
