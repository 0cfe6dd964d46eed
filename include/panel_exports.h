/*
 * The functions of libtihvomen.a, as the archive has them. panel.h and panel_explain.h have a call for each, which takes
 * the panel apart; use those. A list is two arguments, address and length, and the address is never NULL here. `sheet` and
 * `stage` are PANEL_SHEET_WORDS words each, `places` PANEL_STORE_BYTES bytes, the output of a reply PANEL_MOST_REPLY
 * bytes. A refused call leaves them as they were.
 */
#ifndef TIHVOMEN_PANEL_EXPORTS_H
#define TIHVOMEN_PANEL_EXPORTS_H

#include <stdbool.h>
#include <stddef.h>
#include <stdint.h>

#ifdef __cplusplus
extern "C" {
#endif

/* A rule: its kind, and the operators that it names first and second. */
struct panel_rule {
    uint8_t kind;
    uint8_t first;
    uint8_t second;
};

struct panel_raw_answer {
    uint8_t number;
    size_t length;
};

struct panel_raw_judgement {
    uint8_t number;
    uint8_t count;
};

struct panel_raw_part {
    size_t from;
    size_t to;
};

struct panel_raw_powers {
    uint8_t number;
    uint8_t left;
    uint8_t right;
};

uint8_t tihvomen_operators(const uint32_t *sheet);
uint8_t tihvomen_stage(uint32_t *stage, uint32_t n, const uint8_t *kinds_and_rules, size_t);
uint8_t tihvomen_stage_rules(
    uint32_t *stage, uint32_t n, const uint8_t *kinds, size_t, const struct panel_rule *rules, size_t);
struct panel_raw_answer tihvomen_explain(uint32_t n, const uint8_t *kinds_and_rules, size_t, uint8_t *out, size_t);
/* Unlike a staging it takes the rules as their bytes, three each, and the number of these. */
struct panel_raw_answer tihvomen_explain_rules(
    uint32_t n, const uint8_t *kinds, size_t, const uint8_t *rules, size_t, uint8_t *out, size_t);
uint8_t tihvomen_switch(uint32_t *sheet, uint32_t *stage, uint8_t *places);
uint8_t tihvomen_put_row(const uint32_t *sheet, uint8_t *places, uint32_t place, const uint8_t *row, size_t);
uint8_t tihvomen_put_record(const uint32_t *sheet, uint8_t *places, uint32_t place, const uint8_t *record, size_t);
uint8_t tihvomen_put_claim(
    const uint32_t *sheet, uint8_t *places, uint32_t place, const uint8_t *row, size_t, const uint8_t *record, size_t);
uint8_t tihvomen_drop(uint8_t *places, uint32_t place);
struct panel_raw_answer tihvomen_fetch_record(const uint8_t *places, uint32_t place, uint8_t *out, size_t);
struct panel_raw_answer tihvomen_fetch_row(
    const uint32_t *sheet, const uint8_t *places, uint32_t place, uint8_t *out, size_t);
struct panel_raw_answer tihvomen_image(const uint8_t *places, uint32_t place, uint8_t *out, size_t);
struct panel_raw_answer tihvomen_build(const uint32_t *sheet, const uint8_t *row, size_t, uint8_t *out, size_t);
struct panel_raw_answer tihvomen_repair(const uint32_t *sheet, const uint8_t *record, size_t, uint8_t *out, size_t);
struct panel_raw_judgement tihvomen_judge(const uint32_t *sheet, const uint8_t *record, size_t);
struct panel_raw_answer tihvomen_yield(const uint32_t *sheet, const uint8_t *record, size_t, uint8_t *out, size_t);
struct panel_raw_answer tihvomen_shortest_row(const uint32_t *sheet, const uint8_t *record, size_t, uint8_t *out, size_t);
uint8_t tihvomen_operand_number(const uint32_t *sheet, const uint8_t *record, size_t);
struct panel_raw_part tihvomen_operand(const uint32_t *sheet, const uint8_t *record, size_t, bool right);
struct panel_raw_powers tihvomen_powers(const uint32_t *sheet, uint32_t op);
size_t tihvomen_reply(
    uint32_t *sheet, uint32_t *stage, uint8_t *places, const uint8_t *line, size_t, uint8_t *out);

#ifdef __cplusplus
}
#endif

#endif
