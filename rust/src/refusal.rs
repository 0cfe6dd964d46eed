//! The numbers of a turned-down call, as an enum.
use core::error::Error;
use core::fmt;

/// Why a call was turned down. The value of a case is its number; docs/REFERENCE.md, section 4, has them all.
#[derive(Clone, Copy, Debug, PartialEq, Eq, Hash, PartialOrd, Ord)]
#[repr(u8)]
pub enum Refusal {
    /// More than 32 operators, 2,048 rules, 255 tokens in a row, 255 bytes in a record or 12,356 characters in a
    /// line.
    Oversize = 1,
    /// Fewer kind bytes than operators, or the bytes of the rules do not come in threes; beside a list of rules, any
    /// number of kind bytes but that of the operators.
    Torn = 2,
    /// A byte that means nothing here: a kind of operator or rule that does not exist, an operator that the sheet
    /// lacks, 21 inside a record; and a prefix operator whose powers are asked for.
    Stranger = 3,
    /// Under the rules at least one row, however long, has no conflict-free tree.
    Dead = 4,
    /// Each row has a conflict-free tree, but at least one has several.
    Double = 5,
    /// The tokens do not make up one expression.
    NoRow = 6,
    /// The bytes do not make up exactly one tree.
    NoTree = 7,
    /// Places go from 0 to 15.
    Place = 8,
    /// Nothing is held at the place that is to be dropped, fetched or evaluated.
    Empty = 9,
    /// The answer does not fit into the lent output.
    Short = 10,
    /// A tree that is held uses an operator which the staged sheet lacks or has with another kind.
    InUse = 11,
    /// The line is no frame: no digit pairs, a kind that does not exist, or a length that its kind does not have.
    Frame = 12,
    /// An operator of the tree that is to be evaluated has no meaning of its kind: from 1 to 9 for an infix one, 10 or 11
    /// for a prefix one.
    NoMeaning = 13,
    /// A reading of the tree that is to be evaluated lies beyond the lent list.
    NoReading = 14,
    /// A switch where no sheet is staged.
    NothingStaged = 15,
    /// The record that came with a row has another row.
    OtherRow = 16,
    /// The record that came with a row has that row, but its tree is not the conflict-free one.
    Conflict = 17,
}

impl Refusal {
    /// All refusals, in the order of their numbers.
    pub const ALL: [Refusal; 17] = [
        Refusal::Oversize,
        Refusal::Torn,
        Refusal::Stranger,
        Refusal::Dead,
        Refusal::Double,
        Refusal::NoRow,
        Refusal::NoTree,
        Refusal::Place,
        Refusal::Empty,
        Refusal::Short,
        Refusal::InUse,
        Refusal::Frame,
        Refusal::NoMeaning,
        Refusal::NoReading,
        Refusal::NothingStaged,
        Refusal::OtherRow,
        Refusal::Conflict,
    ];

    /// The number of the refusal, from 1 to 17.
    #[must_use]
    pub const fn number(self) -> u8 {
        self as u8
    }

    /// The refusal of a number; none for 0, which is success, and for numbers over 17.
    #[must_use]
    pub fn of_number(number: u8) -> Option<Refusal> {
        Refusal::ALL.into_iter().find(|refusal| refusal.number() == number)
    }

    /// A call's number as a result: 0 is success.
    #[inline]
    pub(crate) fn check(number: u8) -> Result<(), Refusal> {
        match number {
            0 => Ok(()),
            _ => Err(Refusal::of_number(number).expect("the library gives numbers 0 to 17")),
        }
    }
}

impl fmt::Display for Refusal {
    fn fmt(&self, to: &mut fmt::Formatter<'_>) -> fmt::Result {
        to.write_str(match self {
            Refusal::Oversize => "oversize: more operators, rules, tokens or bytes than the panel takes",
            Refusal::Torn => {
                "torn: the kind bytes are not as many as the operators, or the rule bytes not a multiple of three"
            }
            Refusal::Stranger => "stranger: a byte, an operator or a kind that has no meaning here",
            Refusal::Dead => "dead: under these rules some row has no conflict-free tree",
            Refusal::Double => "double: under these rules some row has two or more conflict-free trees",
            Refusal::NoRow => "no row: the tokens are not one expression",
            Refusal::NoTree => "no tree: the record is not exactly one tree",
            Refusal::Place => "place: there are places 0 to 15 only",
            Refusal::Empty => "empty: the place holds nothing",
            Refusal::Short => "short: the lent output is shorter than the answer",
            Refusal::InUse => {
                "in use: a held tree uses an operator that the staged sheet does not have, or has with another kind"
            }
            Refusal::Frame => "frame: the line is not digit pairs, or not of a known kind and its length",
            Refusal::NoMeaning => "no meaning: an operator of the tree has no meaning of its kind",
            Refusal::NoReading => "no reading: a reading of the tree lies beyond the lent list",
            Refusal::NothingStaged => "nothing staged: no sheet waits for a switch",
            Refusal::OtherRow => "other row: the row of the record is not the row that came with it",
            Refusal::Conflict => "conflict: the record's tree has an operator where a rule excludes it",
        })
    }
}

impl Error for Refusal {}

/// The number of no refusal: 0, which is success, or one over 17.
#[derive(Clone, Copy, Debug, PartialEq, Eq, Hash)]
pub struct UnknownNumber(pub u8);

impl fmt::Display for UnknownNumber {
    fn fmt(&self, to: &mut fmt::Formatter<'_>) -> fmt::Result {
        write!(to, "{} is the number of no refusal", self.0)
    }
}

impl Error for UnknownNumber {}

impl TryFrom<u8> for Refusal {
    type Error = UnknownNumber;

    /// The refusal of a number.
    ///
    /// # Errors
    ///
    /// [`UnknownNumber`] for 0, which is success, and for numbers over 17.
    fn try_from(number: u8) -> Result<Refusal, UnknownNumber> {
        Refusal::of_number(number).ok_or(UnknownNumber(number))
    }
}

#[cfg(test)]
mod tests {
    use super::{Refusal, UnknownNumber};

    #[test]
    fn numbers_go_there_and_back() {
        for number in 0..=255 {
            let refusal = Refusal::of_number(number);
            assert_eq!(refusal.is_some(), (1..=17).contains(&number));
            assert_eq!(refusal.map_or(number, Refusal::number), number);
            assert_eq!(Refusal::try_from(number), refusal.ok_or(UnknownNumber(number)));
        }
    }
}
