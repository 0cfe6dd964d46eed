//! The panel, and the calls that stage a sheet, switch it in, and fill, empty and show the places.
use crate::linked::{self, Answer, Places, Sheet};
use crate::refusal::Refusal;
use crate::rule::Rule;
use crate::sizes::{IMAGE_BYTES, MOST_TOKENS, PLACES, SHEET_WORDS, STORE_BYTES};
use core::fmt;

/// The sheet in force, the stage and sixteen places. Panels are equal if their bytes are; they answer alike then.
#[derive(Clone, PartialEq, Eq)]
pub struct Panel {
    pub(crate) sheet: Sheet,
    pub(crate) stage: Sheet,
    pub(crate) places: Places,
}

impl Panel {
    /// A fresh panel: no operators, no rules, nothing staged, sixteen empty places.
    #[must_use]
    pub const fn new() -> Panel {
        Panel { sheet: [0; SHEET_WORDS], stage: [0; SHEET_WORDS], places: [0; STORE_BYTES] }
    }

    /// How many operators the sheet in force has.
    #[must_use]
    pub fn operators(&self) -> u8 {
        linked::operators(&self.sheet)
    }

    /// Stages the sheet of `n` operators, in place of one staged earlier: it is kept beside the sheet in force until a
    /// switch. The bytes are those of a sheet frame after n: a kind byte for each operator, [`INFIX`](crate::INFIX) or
    /// [`PREFIX`](crate::PREFIX), then the rules, three bytes each. [`explain`](crate::explain()) tells why a sheet is dead or
    /// double.
    ///
    /// ```
    /// let mut panel = tihvomen::Panel::new();
    /// panel.stage(1, &[0, 2, 0, 0])?;
    /// // The sheet in force has no operators still.
    /// assert_eq!(panel.put_row(3, &[0x80, 0x00, 0x81]), Err(tihvomen::Refusal::Stranger));
    /// panel.switch()?;
    /// assert_eq!(panel.put_row(3, &[0x80, 0x00, 0x81]), Ok(()));
    /// # Ok::<(), tihvomen::Refusal>(())
    /// ```
    ///
    /// # Errors
    ///
    /// The first that applies: [`Refusal::Oversize`] (1), [`Refusal::Torn`] (2), [`Refusal::Stranger`] (3),
    /// [`Refusal::Dead`] (4), [`Refusal::Double`] (5).
    #[inline]
    pub fn stage(&mut self, n: u8, kinds_and_rules: &[u8]) -> Result<(), Refusal> {
        Refusal::check(linked::stage(&mut self.stage, n, kinds_and_rules))
    }

    /// The same with the rules as a list, and the kind bytes as a list beside it: the same result and the same panel as
    /// with their bytes. Any number of kind bytes but `n` is torn.
    ///
    /// # Errors
    ///
    /// The first that applies: [`Refusal::Oversize`] (1), [`Refusal::Torn`] (2), [`Refusal::Stranger`] (3),
    /// [`Refusal::Dead`] (4), [`Refusal::Double`] (5).
    #[inline]
    pub fn stage_rules(&mut self, n: u8, kinds: &[u8], rules: &[Rule]) -> Result<(), Refusal> {
        Refusal::check(linked::stage_rules(&mut self.stage, n, kinds, rules))
    }

    /// The staged sheet takes the place of the one in force, and nothing is staged then. Each held tree is rebuilt: it is
    /// then the one that its row has under the new sheet.
    ///
    /// # Errors
    ///
    /// The first that applies: [`Refusal::NothingStaged`] (15), [`Refusal::InUse`] (11).
    #[inline]
    pub fn switch(&mut self) -> Result<(), Refusal> {
        Refusal::check(linked::switch(&mut self.sheet, &mut self.stage, &mut self.places))
    }

    /// The place holds the conflict-free tree of the row.
    ///
    /// # Errors
    ///
    /// The first that applies: [`Refusal::Place`] (8), [`Refusal::Oversize`] (1), [`Refusal::Stranger`] (3),
    /// [`Refusal::NoRow`] (6).
    #[inline]
    pub fn put_row(&mut self, place: u8, row: &[u8]) -> Result<(), Refusal> {
        Refusal::check(linked::put_row(&self.sheet, &mut self.places, place, row))
    }

    /// The place holds the conflict-free tree of the record's row.
    ///
    /// # Errors
    ///
    /// The first that applies: [`Refusal::Place`] (8), [`Refusal::Oversize`] (1) for the record,
    /// [`Refusal::Stranger`] (3), [`Refusal::NoTree`] (7), [`Refusal::Oversize`] (1) for its row.
    #[inline]
    pub fn put_record(&mut self, place: u8, record: &[u8]) -> Result<(), Refusal> {
        Refusal::check(linked::put_record(&self.sheet, &mut self.places, place, record))
    }

    /// A row with the record that is claimed for it: accepted exactly if the record is that of the row's conflict-free tree,
    /// whoever made it. The place then holds the record as it was sent, as after a put of the row.
    ///
    /// ```
    /// use tihvomen::{Panel, Refusal};
    ///
    /// let mut panel = Panel::new();
    /// // Two infix operators: 01 over 00, each left with itself.
    /// panel.stage(2, &[0, 0, 1, 1, 0, 2, 1, 1, 2, 0, 0])?;
    /// panel.switch()?;
    /// let row = [0x80, 0x00, 0x81, 0x01, 0x82];
    /// assert_eq!(panel.put_claim(3, &row, &[0x00, 0x80, 0x01, 0x81, 0x83]), Err(Refusal::OtherRow));
    /// assert_eq!(panel.put_claim(3, &row, &[0x01, 0x00, 0x80, 0x81, 0x82]), Err(Refusal::Conflict));
    /// assert_eq!(panel.put_claim(3, &row, &[0x00, 0x80, 0x01, 0x81, 0x82]), Ok(()));
    /// # Ok::<(), Refusal>(())
    /// ```
    ///
    /// # Errors
    ///
    /// The first that applies: [`Refusal::Place`] (8); [`Refusal::Oversize`] (1), [`Refusal::Stranger`] (3),
    /// [`Refusal::NoRow`] (6) for the row; [`Refusal::Oversize`] (1), [`Refusal::Stranger`] (3), [`Refusal::NoTree`] (7)
    /// for the record, [`Refusal::Oversize`] (1) for its row; [`Refusal::OtherRow`] (16), [`Refusal::Conflict`] (17).
    #[inline]
    pub fn put_claim(&mut self, place: u8, row: &[u8], record: &[u8]) -> Result<(), Refusal> {
        Refusal::check(linked::put_claim(&self.sheet, &mut self.places, place, row, record))
    }

    /// The place is empty afterwards.
    ///
    /// # Errors
    ///
    /// The first that applies: [`Refusal::Place`] (8), [`Refusal::Empty`] (9).
    #[inline]
    pub fn drop_place(&mut self, place: u8) -> Result<(), Refusal> {
        Refusal::check(linked::drop_place(&mut self.places, place))
    }

    /// Writes the record of the tree that the place holds to the front of the output; answers its length.
    ///
    /// # Errors
    ///
    /// The first that applies: [`Refusal::Place`] (8), [`Refusal::Empty`] (9), [`Refusal::Short`] (10).
    #[inline]
    pub fn fetch_record_into(&self, place: u8, out: &mut [u8]) -> Result<usize, Refusal> {
        length(linked::fetch_record(&self.places, place, out))
    }

    /// Writes the row of the tree that the place holds to the front of the output; answers its length.
    ///
    /// # Errors
    ///
    /// The first that applies: [`Refusal::Place`] (8), [`Refusal::Empty`] (9), [`Refusal::Short`] (10).
    #[inline]
    pub fn fetch_row_into(&self, place: u8, out: &mut [u8]) -> Result<usize, Refusal> {
        length(linked::fetch_row(&self.sheet, &self.places, place, out))
    }

    /// The image of the place: the record's length, the record, and 00 for the rest; without a tree 00 throughout.
    ///
    /// # Errors
    ///
    /// [`Refusal::Place`] (8).
    pub fn image(&self, place: u8) -> Result<[u8; IMAGE_BYTES], Refusal> {
        let mut image = [0; IMAGE_BYTES];
        self.image_into(place, &mut image).map(|_| image)
    }

    /// Writes the image of the place to the front of the output; answers its length.
    ///
    /// # Errors
    ///
    /// The first that applies: [`Refusal::Place`] (8), [`Refusal::Short`] (10).
    #[inline]
    pub fn image_into(&self, place: u8, out: &mut [u8]) -> Result<usize, Refusal> {
        length(linked::image(&self.places, place, out))
    }
}

impl Default for Panel {
    fn default() -> Panel {
        Panel::new()
    }
}

impl fmt::Debug for Panel {
    /// The number of operators and the records held.
    fn fmt(&self, to: &mut fmt::Formatter<'_>) -> fmt::Result {
        to.debug_struct("Panel").field("operators", &self.operators()).field("held", &Held(self)).finish()
    }
}

/// The places that hold a tree, each with its record.
struct Held<'a>(&'a Panel);

impl fmt::Debug for Held<'_> {
    fn fmt(&self, to: &mut fmt::Formatter<'_>) -> fmt::Result {
        let mut list = to.debug_list();
        for place in 0..PLACES {
            let mut record = [0; MOST_TOKENS];
            if let Ok(length) = self.0.fetch_record_into(place, &mut record) {
                list.entry(&(place, &record[..length]));
            }
        }
        list.finish()
    }
}

/// A call's answer as a result.
#[inline]
pub(crate) fn length(Answer { number, length }: Answer) -> Result<usize, Refusal> {
    Refusal::check(number).map(|()| length)
}
