//! The linked functions. Unsafe code stands here and nowhere else.
//!
//! A slice goes over as address and length; a Rust slice's address is never null. Sheet, stage, places and the output of a
//! reply have fixed lengths and go over by address alone. The structs are laid out as in C.
#![allow(unsafe_code)]
mod exports;

use crate::rule::Rule;
use crate::sizes::{MOST_REPLY, SHEET_WORDS, STORE_BYTES};
use core::mem::size_of_val;

/// A sheet, in force or staged. All zero is the fresh panel's; what the words mean is known to the library alone.
pub type Sheet = [u32; SHEET_WORDS];

/// The sixteen places. All zero is the fresh panel's.
pub type Places = [u8; STORE_BYTES];

#[repr(C)]
pub struct Answer {
    pub number: u8,
    pub length: usize,
}

#[repr(C)]
pub struct Judgement {
    pub number: u8,
    pub count: u8,
}

#[repr(C)]
pub struct Part {
    pub from: usize,
    pub to: usize,
}

#[repr(C)]
pub struct Powers {
    pub number: u8,
    pub left: u8,
    pub right: u8,
}

#[repr(C)]
pub struct Value {
    pub number: u8,
    pub value: i32,
}

#[inline]
pub fn operators(sheet: &Sheet) -> u8 {
    // SAFETY: `sheet` is read within its length.
    unsafe { exports::tihvomen_operators(sheet) }
}

#[inline]
pub fn stage(stage: &mut Sheet, n: u8, bytes: &[u8]) -> u8 {
    // SAFETY: `bytes` is read within its length; `stage` is ours alone meanwhile.
    unsafe { exports::tihvomen_stage(stage, n.into(), bytes.as_ptr(), bytes.len()) }
}

#[inline]
pub fn stage_rules(stage: &mut Sheet, n: u8, kinds: &[u8], rules: &[Rule]) -> u8 {
    // SAFETY: `kinds` and `rules` are read within their lengths; `stage` is ours alone meanwhile.
    unsafe { exports::tihvomen_stage_rules(stage, n.into(), kinds.as_ptr(), kinds.len(), rules.as_ptr(), rules.len()) }
}

#[inline]
pub fn explain(n: u8, bytes: &[u8], out: &mut [u8]) -> Answer {
    // SAFETY: `bytes` is read and `out` written within their lengths; they do not overlap.
    unsafe { exports::tihvomen_explain(n.into(), bytes.as_ptr(), bytes.len(), out.as_mut_ptr(), out.len()) }
}

#[inline]
pub fn explain_rules(n: u8, kinds: &[u8], rules: &[Rule], out: &mut [u8]) -> Answer {
    // SAFETY: a rule is laid out as its three bytes. `kinds` and the bytes of `rules` are read and `out` is written within their
    // lengths; `out` does not overlap the others.
    unsafe {
        exports::tihvomen_explain_rules(
            n.into(),
            kinds.as_ptr(),
            kinds.len(),
            rules.as_ptr().cast(),
            size_of_val(rules),
            out.as_mut_ptr(),
            out.len(),
        )
    }
}

#[inline]
pub fn switch(sheet: &mut Sheet, stage: &mut Sheet, places: &mut Places) -> u8 {
    // SAFETY: `sheet`, `stage` and `places` are ours alone meanwhile.
    unsafe { exports::tihvomen_switch(sheet, stage, places) }
}

#[inline]
pub fn put_row(sheet: &Sheet, places: &mut Places, place: u8, row: &[u8]) -> u8 {
    // SAFETY: `row` is read within its length; `places` is ours alone meanwhile.
    unsafe { exports::tihvomen_put_row(sheet, places, place.into(), row.as_ptr(), row.len()) }
}

#[inline]
pub fn put_record(sheet: &Sheet, places: &mut Places, place: u8, record: &[u8]) -> u8 {
    // SAFETY: `record` is read within its length; `places` is ours alone meanwhile.
    unsafe { exports::tihvomen_put_record(sheet, places, place.into(), record.as_ptr(), record.len()) }
}

#[inline]
pub fn put_claim(sheet: &Sheet, places: &mut Places, place: u8, row: &[u8], record: &[u8]) -> u8 {
    // SAFETY: `row` and `record` are read within their lengths; `places` is ours alone meanwhile.
    unsafe {
        exports::tihvomen_put_claim(sheet, places, place.into(), row.as_ptr(), row.len(), record.as_ptr(), record.len())
    }
}

#[inline]
pub fn drop_place(places: &mut Places, place: u8) -> u8 {
    // SAFETY: `places` is ours alone meanwhile.
    unsafe { exports::tihvomen_drop(places, place.into()) }
}

#[inline]
pub fn fetch_record(places: &Places, place: u8, out: &mut [u8]) -> Answer {
    // SAFETY: `out` is written within its length.
    unsafe { exports::tihvomen_fetch_record(places, place.into(), out.as_mut_ptr(), out.len()) }
}

#[inline]
pub fn fetch_row(sheet: &Sheet, places: &Places, place: u8, out: &mut [u8]) -> Answer {
    // SAFETY: `out` is written within its length.
    unsafe { exports::tihvomen_fetch_row(sheet, places, place.into(), out.as_mut_ptr(), out.len()) }
}

#[inline]
pub fn image(places: &Places, place: u8, out: &mut [u8]) -> Answer {
    // SAFETY: `out` is written within its length.
    unsafe { exports::tihvomen_image(places, place.into(), out.as_mut_ptr(), out.len()) }
}

#[inline]
pub fn build(sheet: &Sheet, row: &[u8], out: &mut [u8]) -> Answer {
    // SAFETY: `row` is read and `out` written within their lengths; they do not overlap.
    unsafe { exports::tihvomen_build(sheet, row.as_ptr(), row.len(), out.as_mut_ptr(), out.len()) }
}

#[inline]
pub fn repair(sheet: &Sheet, record: &[u8], out: &mut [u8]) -> Answer {
    // SAFETY: `record` is read and `out` written within their lengths; they do not overlap.
    unsafe { exports::tihvomen_repair(sheet, record.as_ptr(), record.len(), out.as_mut_ptr(), out.len()) }
}

#[inline]
pub fn judge(sheet: &Sheet, record: &[u8]) -> Judgement {
    // SAFETY: `record` is read within its length.
    unsafe { exports::tihvomen_judge(sheet, record.as_ptr(), record.len()) }
}

#[inline]
pub fn yield_row(sheet: &Sheet, record: &[u8], out: &mut [u8]) -> Answer {
    // SAFETY: `record` is read and `out` written within their lengths; they do not overlap.
    unsafe { exports::tihvomen_yield(sheet, record.as_ptr(), record.len(), out.as_mut_ptr(), out.len()) }
}

#[inline]
pub fn shortest_row(sheet: &Sheet, record: &[u8], out: &mut [u8]) -> Answer {
    // SAFETY: `record` is read and `out` written within their lengths; they do not overlap.
    unsafe { exports::tihvomen_shortest_row(sheet, record.as_ptr(), record.len(), out.as_mut_ptr(), out.len()) }
}

#[inline]
pub fn operand_number(sheet: &Sheet, record: &[u8]) -> u8 {
    // SAFETY: `record` is read within its length.
    unsafe { exports::tihvomen_operand_number(sheet, record.as_ptr(), record.len()) }
}

#[inline]
pub fn operand(sheet: &Sheet, record: &[u8], right: bool) -> Part {
    // SAFETY: `record` is read within its length.
    unsafe { exports::tihvomen_operand(sheet, record.as_ptr(), record.len(), right) }
}

#[inline]
pub fn powers(sheet: &Sheet, operator: u8) -> Powers {
    // SAFETY: `sheet` is read within its length.
    unsafe { exports::tihvomen_powers(sheet, operator.into()) }
}

#[inline]
pub fn reply(
    sheet: &mut Sheet,
    stage: &mut Sheet,
    places: &mut Places,
    line: &[u8],
    out: &mut [u8; MOST_REPLY],
) -> usize {
    // SAFETY: `line` is read within its length; `sheet`, `stage`, `places` and `out` are ours alone meanwhile, and `out` has
    // room for every reply.
    unsafe { exports::tihvomen_reply(sheet, stage, places, line.as_ptr(), line.len(), out) }
}

#[inline]
pub fn evaluate(sheet: &Sheet, places: &Places, place: u8, meanings: &[u8], readings: &[i32]) -> Value {
    // SAFETY: `meanings` and `readings` are read within their lengths.
    unsafe {
        exports::tihvomen_evaluate(
            sheet,
            places,
            place.into(),
            meanings.as_ptr(),
            meanings.len(),
            readings.as_ptr(),
            readings.len(),
        )
    }
}
