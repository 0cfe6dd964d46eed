//! A panel written for speed, to measure the proved one against: the same calls, checks, numbers and answers.

pub mod cases;
pub mod fast;
pub mod frames;
pub mod line;
pub mod timing;

// The random inputs are those of the differential tests.
#[path = "../../rust/tests/differential/inputs.rs"]
pub mod inputs;
#[path = "../../rust/tests/differential/random.rs"]
pub mod random;
#[path = "../../rust/tests/differential/stagings.rs"]
pub mod stagings;
#[path = "../../rust/tests/differential/tree.rs"]
pub mod tree;
