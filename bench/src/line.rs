//! Lines of hexadecimal, as docs/REFERENCE.md, section 8 has them: a frame in, a reply out.
use crate::fast::{Answer, Panel};

/// The most characters of a line that is read.
pub const MOST_CHARACTERS: usize = 12_356;

const NO_DIGIT: u8 = 0xFF;

const VALUES: [u8; 256] = {
    let mut values = [NO_DIGIT; 256];
    let mut value = 0;
    while value < 16 {
        values[DIGITS[value] as usize] = value as u8;
        values[DIGITS[value].to_ascii_uppercase() as usize] = value as u8;
        value += 1;
    }
    values
};

const DIGITS: &[u8; 16] = b"0123456789abcdef";

/// Answers lines to one panel.
pub struct Lines {
    panel: Panel,
    frame: [u8; MOST_CHARACTERS / 2],
    answer: [u8; 256],
}

impl Default for Lines {
    fn default() -> Lines {
        Lines { panel: Panel::default(), frame: [0; MOST_CHARACTERS / 2], answer: [0; 256] }
    }
}

impl Lines {
    /// Appends the reply to a line, without its line end, and a line end.
    pub fn reply(&mut self, line: &[u8], replies: &mut Vec<u8>) {
        let answered = match self.decode(line) {
            Ok(length) => self.call(length),
            Err(number) => Err(number),
        };
        match answered {
            Ok(length) => {
                replies.extend_from_slice(b"00");
                for &byte in &self.answer[..length] {
                    replies.extend_from_slice(&digits(byte));
                }
            }
            Err(number) => replies.extend_from_slice(&digits(number)),
        }
        replies.push(b'\n');
    }

    /// The line's bytes go to `frame`: how many, or 1 or 12.
    fn decode(&mut self, line: &[u8]) -> Answer {
        if line.len() > MOST_CHARACTERS {
            return Err(1);
        }
        let pairs = line.chunks_exact(2);
        if !pairs.remainder().is_empty() {
            return Err(12);
        }
        let mut seen = 0;
        for (pair, byte) in pairs.zip(&mut self.frame) {
            let (high, low) = (VALUES[usize::from(pair[0])], VALUES[usize::from(pair[1])]);
            seen |= high | low;
            *byte = high << 4 | low;
        }
        if seen == NO_DIGIT {
            return Err(12);
        }
        Ok(line.len() / 2)
    }

    /// Makes the frame's call; its answer goes to `answer`.
    fn call(&mut self, length: usize) -> Answer {
        let Lines { panel, frame, answer } = self;
        let frame = &frame[..length];
        match *frame {
            [1, n, ref bytes @ ..] => panel.stage(n, bytes).map(|()| 0),
            [2, place, ref row @ ..] => panel.put_row(place, row).map(|()| 0),
            [3, place] => panel.drop_place(place).map(|()| 0),
            [4, place] => panel.fetch_record(place, answer),
            [5, place] => panel.fetch_row(place, answer),
            [6, place, ref record @ ..] => panel.put_record(place, record).map(|()| 0),
            [7, ref record @ ..] => panel.judge(record).map(|count| {
                answer[0] = count;
                1
            }),
            [8, ref record @ ..] => panel.repair(record, answer),
            [9, place] => panel.image(place, answer),
            [10] => panel.switch().map(|()| 0),
            _ => Err(12),
        }
    }
}

#[inline]
fn digits(byte: u8) -> [u8; 2] {
    [DIGITS[usize::from(byte >> 4)], DIGITS[usize::from(byte & 15)]]
}
