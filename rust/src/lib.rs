//! The condition panel: an operator sheet, a stage for the next one, and sixteen places, each empty or holding one tree.
//!
//! The calls are those of the proved library `libtihvomen.a`, which `bin/library` makes; this crate gives them Rust's
//! habits and adds nothing. Every call takes any bytes and ends. After a refusal the panel and a lent output are as they
//! were; after success the output past the answer's length is as it was.
//!
//! ```
//! use tihvomen::{Panel, Refusal, Rule, INFIX, PREFIX};
//!
//! let mut panel = Panel::new();
//! // Or, and, not: 02 over 01, 01 over 00, the two infix ones left with themselves.
//! let rules = [Rule::priority(2, 1), Rule::priority(1, 0), Rule::left(1, 1), Rule::left(0, 0)];
//! panel.stage_rules(3, &[INFIX, INFIX, PREFIX], &rules)?;
//! panel.switch()?;
//! // a or not b and c
//! panel.put_row(3, &[0x80, 0x00, 0x02, 0x81, 0x01, 0x82])?;
//! # #[cfg(feature = "alloc")]
//! assert_eq!(panel.fetch_record(3)?, [0x00, 0x80, 0x01, 0x02, 0x81, 0x82]);
//! assert_eq!(panel.stage_rules(1, &[INFIX], &[]), Err(Refusal::Double));
//! # Ok::<(), Refusal>(())
//! ```
//!
//! [`explain()`] tells why a sheet is refused: a row that shows it, and the trees that the row has.
//!
//! The crate needs `core` alone. The feature `alloc`, on by default, adds the calls that give a `Vec` or a `String`;
//! each has a form that writes into a lent output and is there without it.
#![no_std]
#![deny(unsafe_code, missing_docs)]
#![warn(clippy::pedantic)]

#[cfg(feature = "alloc")]
extern crate alloc;

mod evaluate;
mod explain;
mod line;
mod linked;
#[cfg(feature = "alloc")]
mod owned;
mod panel;
mod powers;
mod record;
mod refusal;
mod rule;
mod sizes;

pub use explain::{explain, explain_into, explain_rules, explain_rules_into, Explanation};
pub use panel::Panel;
pub use powers::Powers;
pub use record::Side;
pub use refusal::{Refusal, UnknownNumber};
pub use rule::Rule;
pub use sizes::{
    CLOSING, FIRST_READING, IMAGE_BYTES, INFIX, MOST_EXPLAINED, MOST_LINE, MOST_OPERATORS, MOST_REPLY, MOST_RULES,
    MOST_TOKENS, OPENING, PLACES, PREFIX,
};
