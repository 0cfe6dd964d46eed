//! The library against an independent implementation: the same calls to both, every number and every byte compared.
//!
//! The independent side is written from documents 01 and 02 in the plainest way. It knows nothing of the library's algorithms.
#![cfg(feature = "alloc")]

mod book;
mod both;
mod calls;
mod chains;
mod claims;
mod evaluate;
mod explain;
mod expression;
mod forms;
mod frames;
mod histories;
mod inputs;
mod lines;
mod powers;
mod random;
mod runs;
mod sheet;
mod shortest;
mod small;
mod stagings;
mod stored;
mod theory;
mod tree;

use histories::Histories;
use runs::{Tally, KINDS, NUMBERS};
use std::io::Write;

const RUNS: u64 = 3000;
const CALLS: usize = 70;

#[test]
fn runs_agree_with_the_book() {
    let mut tally: Tally = Default::default();
    let mut histories = Histories::default();
    for seed in 0..RUNS {
        runs::run(seed, CALLS, &mut tally, &mut histories);
    }
    let mut lines = format!("\n{} calls in {RUNS} runs\n{:14}", RUNS as usize * CALLS, "number");
    lines += &(0..NUMBERS).map(|number| format!("{number:>7}")).collect::<String>();
    for (kind, (name, _)) in KINDS.iter().enumerate() {
        lines += &format!("\n{name:14}");
        lines += &tally[kind].iter().map(|count| format!("{count:>7}")).collect::<String>();
    }
    let total = |number: usize| tally.iter().map(|kind| kind[number]).sum::<usize>();
    lines += &format!("\n{:14}", "all");
    lines += &(0..NUMBERS).map(|number| format!("{:>7}", total(number))).collect::<String>();
    // Written past the test's own capture, so that the counts are always seen.
    writeln!(std::io::stdout(), "{lines}").unwrap();
    for (kind, (name, numbers)) in KINDS.iter().enumerate() {
        for (number, &count) in tally[kind].iter().enumerate() {
            let possible = numbers.iter().any(|&possible| usize::from(possible) == number);
            assert_eq!(count > 0, possible, "{name}: number {number} must occur exactly if it can");
        }
    }
    assert!(histories.are_complete(), "{histories:?}");
}
