//! Running a condition: the value of a tree that is held.
use crate::linked;
use crate::panel::Panel;
use crate::refusal::Refusal;

impl Panel {
    /// The value of the tree that the place holds. The meaning of operator o is `meanings[o]`: for an infix one 1 or,
    /// 2 and, 3 less, 4 at most, 5 equal, 6 sum, 7 difference, 8 the smaller, 9 the larger; for a prefix one 10 not,
    /// 11 minus. The value of reading 80 is `readings[0]`. 0 is false, all else true; a truth comes out as 0 or 1. A
    /// sum, a difference or a minus past an end of the range is that end, at each node. Brackets pass on what is inside
    /// them. Every operator of the tree must have a meaning of its kind and every reading a value, even where the rest
    /// alone would settle the answer.
    ///
    /// ```
    /// let mut panel = tihvomen::Panel::new();
    /// // Two infix operators and a prefix one: 01 over 02, 02 over 00. Here 00 is "or", 01 is "less" and 02 is "not".
    /// panel.stage(3, &[0, 0, 1, 1, 1, 2, 1, 2, 0, 2, 1, 1, 2, 0, 0])?;
    /// panel.switch()?;
    /// // The limit is less than the time in holdover, or the antenna is not there.
    /// panel.put_row(3, &[0x80, 0x01, 0x81, 0x00, 0x02, 0x82])?;
    /// assert_eq!(panel.evaluate(3, &[1, 3, 10], &[14_400, 3_000, 1])?, 0);
    /// assert_eq!(panel.evaluate(3, &[1, 3, 10], &[1_200, 3_000, 1])?, 1);
    /// # Ok::<(), tihvomen::Refusal>(())
    /// ```
    ///
    /// # Errors
    ///
    /// The first that applies: [`Refusal::Place`] (8), [`Refusal::Empty`] (9), [`Refusal::NoMeaning`] (13),
    /// [`Refusal::NoReading`] (14).
    #[inline]
    pub fn evaluate(&self, place: u8, meanings: &[u8], readings: &[i32]) -> Result<i32, Refusal> {
        let evaluated = linked::evaluate(&self.sheet, &self.places, place, meanings, readings);
        Refusal::check(evaluated.number).map(|()| evaluated.value)
    }
}
