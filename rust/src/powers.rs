//! Binding powers: the sheet in force for a parser that compares numbers.
use crate::linked;
use crate::panel::Panel;
use crate::refusal::Refusal;

/// The binding powers of an infix operator, from 1 to 64. Operators of one left power are a level, and a level of a higher
/// power binds tighter. A level groups to the left if the right powers in it are as high as the left ones, and to the right
/// if they are one less.
#[derive(Clone, Copy, Debug, PartialEq, Eq, Hash)]
pub struct Powers {
    /// With which it reaches for the operand on its left.
    pub left: u8,
    /// With which it holds the operand on its right.
    pub right: u8,
}

impl Panel {
    /// The binding powers of an infix operator of the sheet in force. Of two infix operators with an operand between them the
    /// left one closes first, and so takes the operand, exactly if the left power of the right one is at most its own right
    /// power. A parser that compares powers in this way reads each row without prefix operators as the panel does.
    ///
    /// ```
    /// use tihvomen::{Panel, Powers, Refusal};
    ///
    /// let mut panel = Panel::new();
    /// // 00 is infix and groups to the left; 01 is infix, over 00, and groups to the right; 02 is prefix and over both.
    /// panel.stage(3, &[0, 0, 1, 1, 2, 1, 1, 1, 0, 3, 1, 1, 2, 0, 0])?;
    /// panel.switch()?;
    /// assert_eq!(panel.powers(0)?, Powers { left: 2, right: 2 });
    /// assert_eq!(panel.powers(1)?, Powers { left: 4, right: 3 });
    /// assert_eq!(panel.powers(2), Err(Refusal::Stranger));
    /// # Ok::<(), Refusal>(())
    /// ```
    ///
    /// # Errors
    ///
    /// [`Refusal::Stranger`] (3) where the operator is not on the sheet, or is not infix.
    #[inline]
    pub fn powers(&self, operator: u8) -> Result<Powers, Refusal> {
        let linked::Powers { number, left, right } = linked::powers(&self.sheet, operator);
        Refusal::check(number).map(|()| Powers { left, right })
    }
}
