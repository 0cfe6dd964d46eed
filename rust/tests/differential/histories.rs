//! What befalls a staged sheet before it is switched in, counted over runs: they must come to all of it.
use crate::book::Call;

/// How often a staged sheet was replaced by another; how often it was switched in after a staging that was refused, and after a
/// switch that was refused.
#[derive(Debug, Default)]
pub struct Histories {
    pub replaced: usize,
    pub after_refused_staging: usize,
    pub after_refused_switch: usize,
    staged: Option<Refused>,
}

/// What was refused since the sheet was staged.
#[derive(Debug, Default)]
struct Refused {
    staging: bool,
    switch: bool,
}

impl Histories {
    /// A run begins.
    pub fn begin(&mut self) {
        self.staged = None;
    }

    /// A call of the run had this number.
    pub fn note(&mut self, call: &Call, number: u8) {
        match (call, number, &mut self.staged) {
            (Call::Stage { .. }, 0, staged) => {
                self.replaced += usize::from(staged.is_some());
                *staged = Some(Refused::default());
            }
            (Call::Stage { .. }, _, Some(refused)) => refused.staging = true,
            (Call::Switch, 0, staged) => {
                let refused = staged.take().expect("a staged sheet");
                self.after_refused_staging += usize::from(refused.staging);
                self.after_refused_switch += usize::from(refused.switch);
            }
            (Call::Switch, _, Some(refused)) => refused.switch = true,
            _ => (),
        }
    }

    /// All of it was seen.
    pub fn are_complete(&self) -> bool {
        self.replaced > 0 && self.after_refused_staging > 0 && self.after_refused_switch > 0
    }
}
