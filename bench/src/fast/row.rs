//! Rows: one pass to check, one pass from the right end to build.
use super::sheet::{Sheet, ASKS, BEGINS, CLOSING, OPENING, STRANGE};

/// How long the record of the row's tree is, or 1, 3 or 6.
pub fn check(sheet: &Sheet, row: &[u8]) -> Result<usize, u8> {
    if row.len() > 255 {
        return Err(1);
    }
    let (mut strange, mut wrong, mut before) = (0, 0, ASKS);
    let (mut depth, mut lowest, mut closings) = (0i32, 0, 0);
    for &token in row {
        let class = sheet.class[usize::from(token)];
        strange |= class;
        // Right after what asks for an operand, and only there, one begins.
        wrong |= (before >> 1) ^ class;
        before = class;
        let closing = i32::from(token == CLOSING);
        depth += i32::from(token == OPENING) - closing;
        lowest = lowest.min(depth);
        closings += closing;
    }
    if strange & STRANGE != 0 {
        return Err(3);
    }
    if wrong & BEGINS != 0 || before & ASKS != 0 || depth != 0 || lowest < 0 {
        return Err(6);
    }
    Ok(row.len() - closings as usize)
}

/// A closing bracket on the stack: every operator stops there.
const MARK: u8 = 33;

/// Writes the record of an accepted row; `out` is as long as the record.
pub fn build(sheet: &Sheet, row: &[u8], out: &mut [u8]) {
    // The operators on the left edge of the tree so far wait here, the lowest on top.
    let mut waiting = [0u8; 256];
    waiting[0] = MARK;
    let mut top = 0u8;
    let mut at = out.len();
    for &token in row.iter().rev() {
        if token >= 0x80 {
            at -= 1;
            out[at] = token;
        } else if token < OPENING {
            // The waiting ones that the operator does not close before are below it.
            let stops = u64::from(sheet.closes[usize::from(token)]) | 1 << MARK;
            while stops >> waiting[usize::from(top)] & 1 == 0 {
                at -= 1;
                out[at] = waiting[usize::from(top)];
                top -= 1;
            }
            // A prefix operator has all of its operand then.
            if sheet.is_prefix(token) {
                at -= 1;
                out[at] = token;
                continue;
            }
            top += 1;
            waiting[usize::from(top)] = token;
        } else if token == CLOSING {
            top += 1;
            waiting[usize::from(top)] = MARK;
        } else {
            settle(&waiting, &mut top, out, &mut at);
            top -= 1;
            at -= 1;
            out[at] = OPENING;
        }
    }
    settle(&waiting, &mut top, out, &mut at);
}

/// Writes all that waits above the last mark.
#[inline]
fn settle(waiting: &[u8; 256], top: &mut u8, out: &mut [u8], at: &mut usize) {
    while waiting[usize::from(*top)] != MARK {
        *at -= 1;
        out[*at] = waiting[usize::from(*top)];
        *top -= 1;
    }
}
