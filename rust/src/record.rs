//! The calls about a row or a record that is lent: they use the sheet in force and leave the panel alone.
use crate::linked;
use crate::panel::{length, Panel};
use crate::refusal::Refusal;

/// The operand that is asked for.
#[derive(Clone, Copy, Debug, PartialEq, Eq, Hash)]
pub enum Side {
    /// The left operand; the only tree of a bracket or of a prefix operator counts as it.
    Left,
    /// The right operand.
    Right,
}

impl Panel {
    /// Writes the record of the row's conflict-free tree to the front of the output; answers its length.
    ///
    /// # Errors
    ///
    /// The first that applies: [`Refusal::Oversize`] (1), [`Refusal::Stranger`] (3), [`Refusal::NoRow`] (6),
    /// [`Refusal::Short`] (10).
    #[inline]
    pub fn build_into(&self, row: &[u8], out: &mut [u8]) -> Result<usize, Refusal> {
        length(linked::build(&self.sheet, row, out))
    }

    /// Writes the record of the conflict-free tree of the record's row to the front of the output; answers its length.
    ///
    /// # Errors
    ///
    /// The first that applies: [`Refusal::Oversize`] (1) for the record, [`Refusal::Stranger`] (3),
    /// [`Refusal::NoTree`] (7), [`Refusal::Oversize`] (1) for its row, [`Refusal::Short`] (10).
    #[inline]
    pub fn repair_into(&self, record: &[u8], out: &mut [u8]) -> Result<usize, Refusal> {
        length(linked::repair(&self.sheet, record, out))
    }

    /// The conflict count: over the infix and prefix operators of the tree, how many excluded patterns each shows. An infix one
    /// shows one for each prefix operator that it may not have on the right edge of its left operand.
    ///
    /// # Errors
    ///
    /// The first that applies: [`Refusal::Oversize`] (1) for the record, [`Refusal::Stranger`] (3),
    /// [`Refusal::NoTree`] (7), [`Refusal::Oversize`] (1) for its row.
    #[inline]
    pub fn judge(&self, record: &[u8]) -> Result<u8, Refusal> {
        let judgement = linked::judge(&self.sheet, record);
        Refusal::check(judgement.number).map(|()| judgement.count)
    }

    /// Writes the row of the record's tree to the front of the output; answers its length.
    ///
    /// # Errors
    ///
    /// The first that applies: [`Refusal::Oversize`] (1) for the record, [`Refusal::Stranger`] (3),
    /// [`Refusal::NoTree`] (7), [`Refusal::Oversize`] (1) for its row, [`Refusal::Short`] (10).
    #[inline]
    pub fn yield_row_into(&self, record: &[u8], out: &mut [u8]) -> Result<usize, Refusal> {
        length(linked::yield_row(&self.sheet, record, out))
    }

    /// Writes the shortest row that means the same as the record's row to the front of the output; answers its length.
    /// The conflict-free trees of the two agree once their brackets are taken out. No pair of its brackets can be dropped;
    /// without prefix operators no other row that means the same is as short.
    ///
    /// # Errors
    ///
    /// The first that applies: [`Refusal::Oversize`] (1) for the record, [`Refusal::Stranger`] (3),
    /// [`Refusal::NoTree`] (7), [`Refusal::Oversize`] (1) for its row, [`Refusal::Short`] (10).
    #[inline]
    pub fn shortest_row_into(&self, record: &[u8], out: &mut [u8]) -> Result<usize, Refusal> {
        length(linked::shortest_row(&self.sheet, record, out))
    }

    /// The record of an operand of the top node, as that part of `record`; empty where the top node has no such operand.
    ///
    /// # Errors
    ///
    /// The first that applies: [`Refusal::Oversize`] (1) for the record, [`Refusal::Stranger`] (3),
    /// [`Refusal::NoTree`] (7), [`Refusal::Oversize`] (1) for its row.
    #[inline]
    pub fn operand<'a>(&self, record: &'a [u8], side: Side) -> Result<&'a [u8], Refusal> {
        Refusal::check(linked::operand_number(&self.sheet, record))?;
        let part = linked::operand(&self.sheet, record, side == Side::Right);
        Ok(&record[part.from..part.to])
    }
}
