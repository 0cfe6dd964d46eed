//! A line of hexadecimal in, its reply out.
use crate::linked;
use crate::panel::Panel;
use crate::sizes::MOST_REPLY;
use core::str;

impl Panel {
    /// Runs one line of hexadecimal, without its line end, as the program `panel` does. Writes the reply to the front of
    /// the output and answers it: the number and on success the answer, in lower-case digits, without a line end.
    ///
    /// ```
    /// let mut panel = tihvomen::Panel::new();
    /// let mut out = [0; tihvomen::MOST_REPLY];
    /// // A reading is put at place 3, then its record is fetched.
    /// assert_eq!(panel.reply_into(b"020380", &mut out), "00");
    /// assert_eq!(panel.reply_into(b"0403", &mut out), "0080");
    /// ```
    pub fn reply_into<'a>(&mut self, line: &[u8], out: &'a mut [u8; MOST_REPLY]) -> &'a str {
        let length = linked::reply(&mut self.sheet, &mut self.stage, &mut self.places, line, out);
        text(&out[..length])
    }
}

/// The digits of a reply as text.
fn text(digits: &[u8]) -> &str {
    str::from_utf8(digits).expect("the library replies in digits")
}
