//! A row with the record that is claimed for it: one pass over the record, along the row.
use super::sheet::{Sheet, CLOSING, NONE, OPENING};
use super::{record, row};

/// Stands below all that follows operands.
const END: u8 = 0xFF;

/// Nothing, or 1, 3, 6, then 1, 3, 7, 1, then 16 or 17.
pub fn check(sheet: &Sheet, tokens: &[u8], bytes: &[u8]) -> Result<(), u8> {
    let within = tokens.len() <= 255 && bytes.len() <= 255;
    let conflict = match sheet.prefixes {
        _ if !within => None,
        0 => along::<false>(sheet, tokens, bytes),
        _ => along::<true>(sheet, tokens, bytes),
    };
    match conflict {
        Some(false) => Ok(()),
        Some(true) => Err(17),
        None => {
            row::check(sheet, tokens)?;
            record::check(sheet, bytes)?;
            Err(16)
        }
    }
}

/// Whether the record shows a conflict; none where it is not a tree of the sheet's operators with this row. Of a tree with it nothing
/// else need be checked.
#[inline]
fn along<const PREFIXED: bool>(sheet: &Sheet, tokens: &[u8], bytes: &[u8]) -> Option<bool> {
    let (mut tokens, mut nodes) = (tokens.iter(), bytes.iter());
    // What follows the operand that is gone through: its operator, or a closing bracket; and who looks along the right edge then.
    let (mut after, mut edge) = ([END; 256], [NONE as u8; 256]);
    let mut top = 0u8;
    // The operator above the next operand, whether that is its right or only one, and who looks along its right edge.
    let (mut above, mut last, mut looks) = (NONE as u8, true, NONE as u8);
    let (mut used, mut conflicts) = (0u32, 0u64);
    while let Some(&byte) = nodes.next() {
        if byte < OPENING && !(PREFIXED && sheet.is_prefix(byte)) {
            used |= 1 << byte;
            // Bit NONE of no row is set, and the row NONE is 0.
            let on_left = u64::from(sheet.open[usize::from(byte)]) >> above;
            let on_last = u64::from(sheet.closes[usize::from(above)]) >> byte;
            conflicts |= if last { on_last } else { on_left };
            top += 1;
            after[usize::from(top)] = byte;
            if PREFIXED {
                edge[usize::from(top)] = looks;
            }
            (above, last, looks) = (byte, false, byte);
            continue;
        }
        if tokens.next() != Some(&byte) {
            return None;
        }
        if byte >= 0x80 {
            loop {
                let next = after[usize::from(top)];
                if next == END {
                    let is_row = nodes.next().is_none() && tokens.next().is_none() && used & !sheet.all == 0;
                    return is_row.then_some(conflicts & 1 == 1);
                }
                if tokens.next() != Some(&next) {
                    return None;
                }
                if PREFIXED {
                    looks = edge[usize::from(top)];
                }
                top -= 1;
                if next != CLOSING {
                    (above, last) = (next, true);
                    break;
                }
            }
        } else if byte == OPENING {
            top += 1;
            after[usize::from(top)] = CLOSING;
            (above, looks) = (NONE as u8, NONE as u8);
        } else if byte < OPENING {
            conflicts |= u64::from(sheet.open[usize::from(byte)]) >> looks;
            (above, last) = (byte, true);
        } else {
            return None;
        }
    }
    None
}
