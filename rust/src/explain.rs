//! Why a sheet is refused: the first row that shows it, and the trees that the row has.
mod drawing;

use crate::linked;
use crate::panel::length;
use crate::refusal::Refusal;
use crate::rule::Rule;
use crate::sizes::{FIRST_READING, MOST_EXPLAINED};
use core::fmt;
use drawing::Drawing;

/// Why the sheet of `n` operators is refused. No panel is asked, and none is changed. The bytes are as for
/// [`Panel::stage`](crate::Panel::stage): a kind byte for each operator, then the rules, three bytes each.
///
/// ```
/// use tihvomen::{explain, Refusal};
///
/// // One infix operator and no rule.
/// let explanation = explain(1, &[0])?;
/// assert_eq!(explanation.verdict(), Err(Refusal::Double));
/// assert_eq!(explanation.row(), [0x80, 0x00, 0x81, 0x00, 0x82]);
/// let [first, last] = explanation.records().unwrap();
/// assert_eq!(first, [0x00, 0x80, 0x00, 0x81, 0x82]);
/// assert_eq!(last, [0x00, 0x00, 0x80, 0x81, 0x82]);
/// // With a rule that lets it group to the left, nothing is wrong.
/// assert_eq!(explain(1, &[0, 2, 0, 0])?.verdict(), Ok(()));
/// # Ok::<(), Refusal>(())
/// ```
///
/// # Errors
///
/// The first that applies: [`Refusal::Oversize`] (1), [`Refusal::Torn`] (2), [`Refusal::Stranger`] (3).
#[inline]
pub fn explain(n: u8, kinds_and_rules: &[u8]) -> Result<Explanation, Refusal> {
    gathered(|out| explain_into(n, kinds_and_rules, out))
}

/// The same with the rules as a list, and the kind bytes as a list beside it. Any number of kind bytes but `n` is torn.
///
/// # Errors
///
/// The first that applies: [`Refusal::Oversize`] (1), [`Refusal::Torn`] (2), [`Refusal::Stranger`] (3).
#[inline]
pub fn explain_rules(n: u8, kinds: &[u8], rules: &[Rule]) -> Result<Explanation, Refusal> {
    gathered(|out| explain_rules_into(n, kinds, rules, out))
}

/// Writes the bytes of what [`explain`] answers to the front of the output; answers their number, which is at most
/// [`MOST_EXPLAINED`]. They are those of [`Explanation::as_bytes`].
///
/// # Errors
///
/// The first that applies: [`Refusal::Oversize`] (1), [`Refusal::Torn`] (2), [`Refusal::Stranger`] (3),
/// [`Refusal::Short`] (10).
#[inline]
pub fn explain_into(n: u8, kinds_and_rules: &[u8], out: &mut [u8]) -> Result<usize, Refusal> {
    length(linked::explain(n, kinds_and_rules, out))
}

/// The same for [`explain_rules`].
///
/// # Errors
///
/// The first that applies: [`Refusal::Oversize`] (1), [`Refusal::Torn`] (2), [`Refusal::Stranger`] (3),
/// [`Refusal::Short`] (10).
#[inline]
pub fn explain_rules_into(n: u8, kinds: &[u8], rules: &[Rule], out: &mut [u8]) -> Result<usize, Refusal> {
    length(linked::explain_rules(n, kinds, rules, out))
}

/// Why a sheet is refused, if it is. Its row is the first that shows it: one of two operators before one of three, and smaller
/// operators first. The readings of the row are 80, 81, and on from the left.
///
/// It is displayed in lines for a reader: the verdict, the operators, the row, and each tree as a record and as a drawing.
#[derive(Clone, Copy, PartialEq, Eq, Hash)]
pub struct Explanation {
    bytes: [u8; MOST_EXPLAINED],
    /// So many of the bytes are the answer; the others are 0.
    length: usize,
}

impl Explanation {
    /// What a staging of the sheet answers.
    ///
    /// # Errors
    ///
    /// [`Refusal::Dead`] (4) where the row has no conflict-free tree, [`Refusal::Double`] (5) where it has two.
    #[inline]
    pub fn verdict(&self) -> Result<(), Refusal> {
        Refusal::check(self.bytes[0])
    }

    /// The row that has no conflict-free tree, or two; empty where the sheet is accepted.
    #[must_use]
    pub fn row(&self) -> &[u8] {
        self.records().map_or(self.after_verdict(), |[first, _]| &self.after_verdict()[..first.len()])
    }

    /// The records of the row's two conflict-free trees, where it has two. The row's first operator is on top of the first of
    /// them, its last operator on top of the other.
    #[must_use]
    pub fn records(&self) -> Option<[&[u8]; 2]> {
        if self.verdict() != Err(Refusal::Double) {
            return None;
        }
        // The row is as long as each of them.
        let (_, records) = self.after_verdict().split_at((self.length - 1) / 3);
        let (first, last) = records.split_at(records.len() / 2);
        Some([first, last])
    }

    /// The answer as the library has it: the verdict, the row, and the two records.
    #[must_use]
    pub fn as_bytes(&self) -> &[u8] {
        &self.bytes[..self.length]
    }

    fn after_verdict(&self) -> &[u8] {
        &self.as_bytes()[1..]
    }
}

/// The answer of a call that writes an explanation.
fn gathered(call: impl FnOnce(&mut [u8]) -> Result<usize, Refusal>) -> Result<Explanation, Refusal> {
    let mut bytes = [0; MOST_EXPLAINED];
    let length = call(&mut bytes)?;
    Ok(Explanation { bytes, length })
}

impl fmt::Debug for Explanation {
    fn fmt(&self, to: &mut fmt::Formatter<'_>) -> fmt::Result {
        to.debug_tuple("Explanation").field(&self.as_bytes()).finish()
    }
}

impl fmt::Display for Explanation {
    fn fmt(&self, to: &mut fmt::Formatter<'_>) -> fmt::Result {
        if let Err(refusal) = self.verdict() {
            write!(to, "{refusal}")?;
        } else {
            return to.write_str("accepted: under these rules each row has one conflict-free tree and no second");
        }
        let operators = self.row().iter().filter(|&&token| token < FIRST_READING);
        write_bytes(to, "operators", operators)?;
        write_bytes(to, "row", self.row())?;
        // A row of an explanation has a prefix operator at its beginning or nowhere.
        let is_prefix = |operator| self.row().first() == Some(&operator);
        for record in self.records().into_iter().flatten() {
            write_bytes(to, "tree", record)?;
            Drawing::of_record(record, is_prefix).write_indented(to)?;
        }
        Ok(())
    }
}

/// A line of bytes in hexadecimal after a word.
fn write_bytes<'a>(to: &mut fmt::Formatter<'_>, word: &str, bytes: impl IntoIterator<Item = &'a u8>) -> fmt::Result {
    write!(to, "\n{word}")?;
    bytes.into_iter().try_for_each(|byte| write!(to, " {byte:02x}"))
}
