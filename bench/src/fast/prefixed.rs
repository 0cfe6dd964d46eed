//! Records under a sheet with prefix operators: the conflict count, and the shortest row. An infix operator looks along the right
//! edge of its left operand for them.
use super::sheet::{Sheet, CLOSING, NONE, OPENING};

/// What stands above an operand: the operator, whether it is its right or only operand, and the infix operator that looks along
/// its right edge. `NONE` where there is none.
#[derive(Clone, Copy)]
struct Above {
    operator: u8,
    last: bool,
    looks: u8,
}

const NOTHING: Above = Above { operator: NONE as u8, last: true, looks: NONE as u8 };

/// The conflict count of an accepted record: from the left end, with a stack of what stands above the operands to come.
pub fn conflicts(sheet: &Sheet, bytes: &[u8]) -> u8 {
    let mut waiting = [NOTHING; 256];
    let mut top = 0u8;
    let mut count = 0;
    let mut above = NOTHING;
    for &byte in bytes {
        if byte >= 0x80 {
            top = top.saturating_sub(1);
            above = waiting[usize::from(top)];
        } else if byte == OPENING {
            above = NOTHING;
        } else if sheet.is_prefix(byte) {
            // Bit NONE of no row is set.
            count += u64::from(sheet.open[usize::from(byte)]) >> above.looks & 1;
            above = Above { operator: byte, last: true, looks: above.looks };
        } else {
            count += shows(sheet, above, byte);
            waiting[usize::from(top)] = Above { operator: byte, last: true, looks: above.looks };
            top += 1;
            above = Above { operator: byte, last: false, looks: byte };
        }
    }
    count as u8
}

/// 1 where an infix operator at the top of an operand shows a conflict with the operator above.
#[inline]
fn shows(sheet: &Sheet, above: Above, byte: u8) -> u64 {
    let on_left = u64::from(sheet.open[usize::from(byte)]) >> above.operator;
    let on_last = u64::from(sheet.closes[usize::from(above.operator)]) >> byte;
    (if above.last { on_last } else { on_left }) & 1
}

/// A tree with the brackets that it needs inside: where its top node stands, its infix operator, and the prefix operators on its
/// right edge.
#[derive(Clone, Copy)]
struct Seen {
    at: u8,
    infix: u8,
    edge: u32,
}

/// Writes the shortest row of a conflict-free record: from the inside out, an operand goes in brackets where it shows a conflict with
/// the operator above. Answers the row's length.
pub fn write_shortest(sheet: &Sheet, bytes: &[u8], out: &mut [u8; 256]) -> usize {
    let mut bracketed = [false; 256];
    let mut trees = [Seen { at: 0, infix: NONE as u8, edge: 0 }; 256];
    let mut top = 0u8;
    for (at, &byte) in bytes.iter().enumerate().rev() {
        let at = at as u8;
        let last = trees[usize::from(top.wrapping_sub(1))];
        if byte >= 0x80 {
            trees[usize::from(top)] = Seen { at, infix: NONE as u8, edge: 0 };
            top += 1;
        } else if byte < OPENING && sheet.is_prefix(byte) {
            let in_brackets = sheet.closes[usize::from(byte)] & bit(last.infix) != 0;
            bracketed[usize::from(last.at)] = in_brackets;
            let edge = if in_brackets { 0 } else { last.edge } | bit(byte);
            trees[usize::from(top - 1)] = Seen { at, infix: NONE as u8, edge };
        } else if byte < OPENING {
            let (left, right) = (last, trees[usize::from(top - 2)]);
            bracketed[usize::from(left.at)] = looks_at_conflict(sheet, byte, left);
            let in_brackets = sheet.closes[usize::from(byte)] & bit(right.infix) != 0;
            bracketed[usize::from(right.at)] = in_brackets;
            let edge = if in_brackets { 0 } else { right.edge };
            top -= 1;
            trees[usize::from(top - 1)] = Seen { at, infix: byte, edge };
        }
    }
    write_bracketed(sheet, bytes, &bracketed, out)
}

/// No bit for `NONE`.
#[inline]
fn bit(operator: u8) -> u32 {
    (1u64 << operator) as u32
}

/// Whether an infix operator looks at an excluded one in its left operand.
fn looks_at_conflict(sheet: &Sheet, operator: u8, left: Seen) -> bool {
    let mut excluded = sheet.open[usize::from(left.infix)] & bit(operator);
    let mut edge = left.edge;
    while edge != 0 {
        excluded |= sheet.open[edge.trailing_zeros() as usize] & bit(operator);
        edge &= edge - 1;
    }
    excluded != 0
}

/// Writes the row of a record with brackets around these nodes in place of its own.
fn write_bracketed(sheet: &Sheet, bytes: &[u8], bracketed: &[bool; 256], out: &mut [u8; 256]) -> usize {
    let mut after = [0u8; 256];
    let (mut top, mut at) = (0u8, 0u8);
    let mut write = |byte: u8| {
        out[usize::from(at)] = byte;
        at += 1;
    };
    for (&byte, &in_brackets) in bytes.iter().zip(bracketed) {
        if in_brackets {
            write(OPENING);
            top += 1;
            after[usize::from(top)] = CLOSING;
        }
        if byte >= 0x80 {
            write(byte);
            while top > 0 {
                let next = after[usize::from(top)];
                top -= 1;
                write(next);
                if next != CLOSING {
                    break;
                }
            }
        } else if byte < OPENING && sheet.is_prefix(byte) {
            write(byte);
        } else if byte < OPENING {
            top += 1;
            after[usize::from(top)] = byte;
        }
    }
    usize::from(at)
}
