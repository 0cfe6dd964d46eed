//! The calls that give a `Vec` or a `String`, each over the one that writes into a lent output.
use crate::panel::Panel;
use crate::refusal::Refusal;
use crate::sizes::{MOST_REPLY, MOST_TOKENS};
use alloc::string::String;
use alloc::vec::Vec;

impl Panel {
    /// The record of the tree that the place holds.
    ///
    /// # Errors
    ///
    /// The first that applies: [`Refusal::Place`] (8), [`Refusal::Empty`] (9).
    pub fn fetch_record(&self, place: u8) -> Result<Vec<u8>, Refusal> {
        gathered(|out| self.fetch_record_into(place, out))
    }

    /// The row of the tree that the place holds.
    ///
    /// # Errors
    ///
    /// The first that applies: [`Refusal::Place`] (8), [`Refusal::Empty`] (9).
    pub fn fetch_row(&self, place: u8) -> Result<Vec<u8>, Refusal> {
        gathered(|out| self.fetch_row_into(place, out))
    }

    /// The record of the row's conflict-free tree.
    ///
    /// # Errors
    ///
    /// The first that applies: [`Refusal::Oversize`] (1), [`Refusal::Stranger`] (3), [`Refusal::NoRow`] (6).
    pub fn build(&self, row: &[u8]) -> Result<Vec<u8>, Refusal> {
        gathered(|out| self.build_into(row, out))
    }

    /// The record of the conflict-free tree of the record's row.
    ///
    /// # Errors
    ///
    /// The first that applies: [`Refusal::Oversize`] (1) for the record, [`Refusal::Stranger`] (3),
    /// [`Refusal::NoTree`] (7), [`Refusal::Oversize`] (1) for its row.
    pub fn repair(&self, record: &[u8]) -> Result<Vec<u8>, Refusal> {
        gathered(|out| self.repair_into(record, out))
    }

    /// The row of the record's tree.
    ///
    /// # Errors
    ///
    /// The first that applies: [`Refusal::Oversize`] (1) for the record, [`Refusal::Stranger`] (3),
    /// [`Refusal::NoTree`] (7), [`Refusal::Oversize`] (1) for its row.
    pub fn yield_row(&self, record: &[u8]) -> Result<Vec<u8>, Refusal> {
        gathered(|out| self.yield_row_into(record, out))
    }

    /// The shortest row that means the same as the record's row: the conflict-free trees of the two agree once their brackets
    /// are taken out. No pair of its brackets can be dropped; without prefix operators no other row that means the same is as
    /// short.
    ///
    /// ```
    /// let mut panel = tihvomen::Panel::new();
    /// // Two infix operators: 01 over 00, each left with itself.
    /// panel.stage(2, &[0, 0, 1, 1, 0, 2, 1, 1, 2, 0, 0])?;
    /// panel.switch()?;
    /// let spare = panel.build(&[0x20, 0x80, 0x21, 0x00, 0x20, 0x81, 0x01, 0x82, 0x21])?;
    /// assert_eq!(panel.shortest_row(&spare)?, [0x80, 0x00, 0x81, 0x01, 0x82]);
    /// let needed = [0x20, 0x80, 0x00, 0x81, 0x21, 0x01, 0x82];
    /// assert_eq!(panel.shortest_row(&panel.build(&needed)?)?, needed);
    /// # Ok::<(), tihvomen::Refusal>(())
    /// ```
    ///
    /// # Errors
    ///
    /// The first that applies: [`Refusal::Oversize`] (1) for the record, [`Refusal::Stranger`] (3),
    /// [`Refusal::NoTree`] (7), [`Refusal::Oversize`] (1) for its row.
    pub fn shortest_row(&self, record: &[u8]) -> Result<Vec<u8>, Refusal> {
        gathered(|out| self.shortest_row_into(record, out))
    }

    /// Runs one line of hexadecimal, without its line end, as the program `panel` does. Answers the reply: the number and on
    /// success the answer, in lower-case digits, without a line end.
    pub fn reply(&mut self, line: &[u8]) -> String {
        self.reply_into(line, &mut [0; MOST_REPLY]).into()
    }
}

/// The answer of a call that writes at most as much as a row or a record has.
fn gathered(call: impl FnOnce(&mut [u8]) -> Result<usize, Refusal>) -> Result<Vec<u8>, Refusal> {
    let mut out = [0; MOST_TOKENS];
    call(&mut out).map(|length| out[..length].to_vec())
}
