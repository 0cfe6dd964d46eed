//! A sheet on both sides.
use crate::sheet::Sheet;
use tihvomen::{Panel, Refusal};

/// The number of its staging on a fresh panel, which is the plain side's too, and what both then have. An accepted one is switched in.
pub fn switched_in(kinds: &[u8], rules: &[u8]) -> (u8, Sheet, Panel) {
    let sheet = Sheet::of_rules(kinds, rules);
    let mut panel = Panel::new();
    let staged = panel.stage(kinds.len() as u8, &[kinds, rules].concat());
    let number = staged.map_or_else(|refusal| refusal.number(), |()| 0);
    assert_eq!(number, sheet.verdict(), "{kinds:02x?} {rules:02x?}");
    assert_eq!(panel.switch(), staged.map_err(|_| Refusal::NothingStaged), "{kinds:02x?} {rules:02x?}");
    (number, sheet, panel)
}
