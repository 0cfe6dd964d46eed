//! Binding powers, as the request words them, and what they are good for.
use crate::both;
use crate::inputs::{self, Make};
use crate::random::Random;
use crate::sheet::Sheet;
use crate::stagings;
use crate::tree::{is_of_kind, Side, CLOSING, INFIX, OPENING};
use tihvomen::Panel;

impl Sheet {
    /// The left and the right power: 3.
    pub fn powers(&self, operator: u8) -> Result<[u8; 2], u8> {
        if operator >= self.n() || !is_of_kind(&self.kinds, operator, INFIX) {
            return Err(3);
        }
        let mut left = 2;
        for other in 0..self.n() {
            if is_of_kind(&self.kinds, other, INFIX) && self.lies_above(operator, other) {
                left += 2;
            }
        }
        let right = if self.closes_before(operator, operator) { left } else { left - 1 };
        Ok([left, right])
    }

    fn closes_before(&self, a: u8, b: u8) -> bool {
        self.excluded(Side::Right, a, b)
    }

    fn lies_above(&self, a: u8, c: u8) -> bool {
        self.closes_before(a, c) && !self.closes_before(c, a)
    }
}

/// A parser that knows the powers and nothing else of the sheet: the record of the expression at the front of the tokens, as far as
/// its operators have a left power over the floor. What is left of the tokens, which are a row, stays.
fn parsed(panel: &Panel, tokens: &mut &[u8], floor: u8) -> Vec<u8> {
    let mut record = operand(panel, tokens);
    while let Some(powers) = tokens.first().and_then(|&token| panel.powers(token).ok()).filter(|it| it.left > floor) {
        let operator = taken(tokens);
        record = [vec![operator], record, parsed(panel, tokens, powers.right)].concat();
    }
    record
}

fn operand(panel: &Panel, tokens: &mut &[u8]) -> Vec<u8> {
    let mut record = vec![taken(tokens)];
    if record[0] == OPENING {
        record.extend(parsed(panel, tokens, 0));
        assert_eq!(taken(tokens), CLOSING);
    }
    record
}

fn taken(tokens: &mut &[u8]) -> u8 {
    let (&first, rest) = tokens.split_first().expect("a row goes on here");
    *tokens = rest;
    first
}

/// Under good sheets: the powers tell which of two operators the panel closes first, and a parser by powers reads rows of infix
/// operators as the panel does.
#[test]
fn powers_read_rows_as_the_panel_does() {
    let mut random = Random::new(4);
    for _ in 0..400 {
        let n = 1 + random.below(32) as u8;
        let staging = stagings::good(&mut random, n);
        let (_, sheet, panel) = both::switched_in(&staging.kinds, &staging.rules);
        let infix: Vec<u8> = (0..n).filter(|&operator| is_of_kind(&staging.kinds, operator, INFIX)).collect();
        for &a in &infix {
            for &b in &infix {
                let closes = panel.powers(b).unwrap().left <= panel.powers(a).unwrap().right;
                let top_first = if closes { [b, a, 0x80, 0x81, 0x82] } else { [a, 0x80, b, 0x81, 0x82] };
                assert_eq!(panel.build(&[0x80, a, 0x81, b, 0x82]), Ok(top_first.to_vec()));
                assert_eq!(sheet.closes_before(a, b), closes);
            }
        }
        // Without the prefix operators.
        let kinds: Vec<u8> = staging.kinds.iter().map(|&kind| if kind == INFIX { INFIX } else { u8::MAX }).collect();
        for tokens in [1, 3, 5, 7, 9, 15, 31, 63, 127, 255] {
            let row = inputs::tree(&mut random, &Make::of(&kinds, 2, 10, 0), tokens).row();
            let mut left = &row[..];
            assert_eq!(Ok(parsed(&panel, &mut left, 0)), panel.build(&row), "{row:02x?}");
            assert!(left.is_empty());
        }
    }
}
