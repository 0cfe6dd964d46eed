//! The functions of the archive, as it has them.
use super::{Answer, Judgement, Part, Places, Powers, Sheet, Value};
use crate::rule::Rule;
use crate::sizes::MOST_REPLY;

extern "C" {
    pub fn tihvomen_operators(sheet: &Sheet) -> u8;
    pub fn tihvomen_stage(stage: &mut Sheet, n: u32, bytes: *const u8, length: usize) -> u8;
    pub fn tihvomen_stage_rules(
        stage: &mut Sheet,
        n: u32,
        kinds: *const u8,
        kind_count: usize,
        rules: *const Rule,
        count: usize,
    ) -> u8;
    pub fn tihvomen_explain(n: u32, bytes: *const u8, length: usize, out: *mut u8, room: usize) -> Answer;
    pub fn tihvomen_explain_rules(
        n: u32,
        kinds: *const u8,
        kind_count: usize,
        rule_bytes: *const u8,
        rule_length: usize,
        out: *mut u8,
        room: usize,
    ) -> Answer;
    pub fn tihvomen_switch(sheet: &mut Sheet, stage: &mut Sheet, places: &mut Places) -> u8;
    pub fn tihvomen_put_row(sheet: &Sheet, places: &mut Places, place: u32, row: *const u8, length: usize) -> u8;
    pub fn tihvomen_put_record(sheet: &Sheet, places: &mut Places, place: u32, record: *const u8, length: usize) -> u8;
    pub fn tihvomen_put_claim(
        sheet: &Sheet,
        places: &mut Places,
        place: u32,
        row: *const u8,
        row_length: usize,
        record: *const u8,
        record_length: usize,
    ) -> u8;
    pub fn tihvomen_drop(places: &mut Places, place: u32) -> u8;
    pub fn tihvomen_fetch_record(places: &Places, place: u32, out: *mut u8, room: usize) -> Answer;
    pub fn tihvomen_fetch_row(sheet: &Sheet, places: &Places, place: u32, out: *mut u8, room: usize) -> Answer;
    pub fn tihvomen_image(places: &Places, place: u32, out: *mut u8, room: usize) -> Answer;
    pub fn tihvomen_build(sheet: &Sheet, row: *const u8, length: usize, out: *mut u8, room: usize) -> Answer;
    pub fn tihvomen_repair(sheet: &Sheet, record: *const u8, length: usize, out: *mut u8, room: usize) -> Answer;
    pub fn tihvomen_judge(sheet: &Sheet, record: *const u8, length: usize) -> Judgement;
    pub fn tihvomen_yield(sheet: &Sheet, record: *const u8, length: usize, out: *mut u8, room: usize) -> Answer;
    pub fn tihvomen_shortest_row(sheet: &Sheet, record: *const u8, length: usize, out: *mut u8, room: usize) -> Answer;
    pub fn tihvomen_operand_number(sheet: &Sheet, record: *const u8, length: usize) -> u8;
    pub fn tihvomen_operand(sheet: &Sheet, record: *const u8, length: usize, right: bool) -> Part;
    pub fn tihvomen_powers(sheet: &Sheet, operator: u32) -> Powers;
    pub fn tihvomen_reply(
        sheet: &mut Sheet,
        stage: &mut Sheet,
        places: &mut Places,
        line: *const u8,
        length: usize,
        out: &mut [u8; MOST_REPLY],
    ) -> usize;
    pub fn tihvomen_evaluate(
        sheet: &Sheet,
        places: &Places,
        place: u32,
        meanings: *const u8,
        meaning_count: usize,
        readings: *const i32,
        reading_count: usize,
    ) -> Value;
}
