/*
 * The condition panel for C99 and C++: an operator sheet, a stage for the next one, and sixteen places for a tree each.
 *
 * To link: `bin/library PREFIX` installs headers and archive, then `cc page.c $(pkg-config --cflags --libs tihvomen)`.
 * Without PREFIX it makes target/lib/libtihvomen.a. The archive is for x86-64 (SSE2 and nothing later), ELF and the
 * System V calling convention. Its code is position independent. From outside it wants memcpy and memset, nothing else.
 * The headers are fit for freestanding programs. panel_stack.h has the stack that each call takes.
 *
 * What holds of every call:
 *  - It takes any bytes and ends. It allocates nothing, and has no state of its own: what it keeps is in the panel.
 *  - It answers a number: 0, or the first refusal that applies, in the order named with the call.
 *  - A place that is no place is refused with 8, a count of operators over 32 with 1 and an operator that is none with 3,
 *    however large it is.
 *  - After a refusal the panel and the lent output are as they were.
 *  - After success the output past the answer's length is as it was.
 *  - A list of length 0 may be lent as NULL. No other pointer may be NULL: no panel, no other list, no output of a reply.
 *  - What a call only reads may overlap. What it writes must not overlap anything else that is lent to it.
 *
 * Tokens are bytes: operators up to 1F, the brackets 20 and 21, readings from 80 up. An infix operator stands between two
 * operands, a prefix operator before its only one. Tokens that make up an expression are a row. A record writes a tree as
 * bytes, each node before its operands; a bracket node is 20 and the tree inside. docs/REFERENCE.md of the repository says
 * it in full.
 */
#ifndef TIHVOMEN_PANEL_H
#define TIHVOMEN_PANEL_H

#include "panel_exports.h"
#include "panel_kinds.h"
#include "panel_numbers.h"
#include "panel_sizes.h"

/* The operand that is asked for. */
enum panel_side {
    PANEL_LEFT_SIDE = 0,
    PANEL_RIGHT_SIDE = 1
};

/* A sheet, in force or staged. What its words mean is known to the library alone. */
struct panel_sheet {
    uint32_t words[PANEL_SHEET_WORDS];
};

/*
 * A panel: the sheet in force, the stage and the sixteen places. All zero bytes are a fresh panel. It may be copied like
 * any struct. Only the calls write it. Bytes that no call made also get one fixed answer, and the call still ends.
 */
struct panel {
    struct panel_sheet sheet;
    struct panel_sheet stage; /* the staged sheet, or nothing */
    uint8_t places[PANEL_STORE_BYTES];
};

/* A fresh panel, as in `struct panel p = PANEL_FRESH;` */
#define PANEL_FRESH {{{0}}, {{0}}, {0}}

/* The number of a call that writes an answer, and the answer's length; 0 after a refusal. */
struct panel_answer {
    enum panel_number number;
    size_t length;
};

/* The number of a record, and the conflict count of its tree; 0 after a refusal. */
struct panel_judgement {
    enum panel_number number;
    uint8_t count;
};

/* The number of a record, and where an operand stands in it. The length is 0 after a refusal and where there is none. */
struct panel_part {
    enum panel_number number;
    size_t offset;
    size_t length;
};

/* The number of the call, and the binding powers of the operator; both are 0 after a refusal. */
struct panel_powers {
    enum panel_number number;
    uint8_t left;
    uint8_t right;
};

/* An address for a list that is read: not NULL where its length is 0. */
static inline const uint8_t *panel_from(const uint8_t *bytes, size_t length) {
    return length == 0 ? (const uint8_t *)"" : bytes;
}

/* The same for one that is written. */
static inline uint8_t *panel_into(uint8_t *out, size_t room, uint8_t *spare) {
    return room == 0 ? spare : out;
}

static inline struct panel_answer panel_answered(struct panel_raw_answer raw) {
    struct panel_answer answer;
    answer.number = (enum panel_number)raw.number;
    answer.length = raw.length;
    return answer;
}

/* The panel is fresh: no operators, no rules, nothing staged, sixteen empty places. */
static inline void panel_fresh(struct panel *p) {
    for (size_t i = 0; i < PANEL_SHEET_WORDS; i++)
        p->sheet.words[i] = p->stage.words[i] = 0;
    for (size_t i = 0; i < PANEL_STORE_BYTES; i++)
        p->places[i] = 0;
}

/* How many operators the sheet in force has. */
PANEL_NODISCARD static inline unsigned panel_operators(const struct panel *p) {
    return tihvomen_operators(p->sheet.words);
}

/*
 * Stages the sheet of n operators, in place of one staged earlier: it is kept beside the sheet in force until a switch. The
 * bytes are n kinds of operators, then the rules, three bytes each. A sheet is accepted only if each row over its
 * operators, however long, has one conflict-free tree and no second; panel_explain.h tells why not. Numbers: 1, 2, 3, 4, 5.
 */
PANEL_NODISCARD static inline enum panel_number panel_stage(
    struct panel *p, unsigned n, const uint8_t *kinds_and_rules, size_t length) {
    return (enum panel_number)tihvomen_stage(p->stage.words, n, panel_from(kinds_and_rules, length), length);
}

/*
 * The same with the rules as a list of records and the kinds as a list beside it: the same number and the same panel as
 * with their bytes; any number of kinds but n is 2. Numbers: 1, 2, 3, 4, 5.
 */
PANEL_NODISCARD static inline enum panel_number panel_stage_rules(
    struct panel *p, unsigned n, const uint8_t *kinds, size_t kind_count, const struct panel_rule *rules, size_t count) {
    struct panel_rule none = {0, 0, 0};
    const struct panel_rule *from = count == 0 ? &none : rules;
    return (enum panel_number)tihvomen_stage_rules(
        p->stage.words, n, panel_from(kinds, kind_count), kind_count, from, count);
}

/*
 * The staged sheet takes the place of the one in force, and nothing is staged then. Each held tree is rebuilt: it is then
 * the one that its row has under the new sheet. Numbers: 15, 11.
 */
PANEL_NODISCARD static inline enum panel_number panel_switch(struct panel *p) {
    return (enum panel_number)tihvomen_switch(p->sheet.words, p->stage.words, p->places);
}

/* The place holds the conflict-free tree of the row. Numbers: 8, 1, 3, 6. */
PANEL_NODISCARD static inline enum panel_number panel_put_row(
    struct panel *p, unsigned place, const uint8_t *row, size_t length) {
    return (enum panel_number)tihvomen_put_row(p->sheet.words, p->places, place, panel_from(row, length), length);
}

/* The place holds the conflict-free tree of the record's row. Numbers: 8, 1, 3, 7, 1. */
PANEL_NODISCARD static inline enum panel_number panel_put_record(
    struct panel *p, unsigned place, const uint8_t *record, size_t length) {
    return (enum panel_number)tihvomen_put_record(p->sheet.words, p->places, place, panel_from(record, length), length);
}

/*
 * A row with the record that is claimed for it: accepted exactly if the record is that of the row's conflict-free tree,
 * whoever made it. The place then holds the record as it was sent, as after a put of the row. Numbers: 8; 1, 3, 6 for the
 * row; 1, 3, 7, 1 for the record; 16, 17.
 */
PANEL_NODISCARD static inline enum panel_number panel_put_claim(
    struct panel *p, unsigned place, const uint8_t *row, size_t row_length, const uint8_t *record, size_t record_length) {
    return (enum panel_number)tihvomen_put_claim(
        p->sheet.words, p->places, place, panel_from(row, row_length), row_length, panel_from(record, record_length),
        record_length);
}

/* The place is empty afterwards. Numbers: 8, 9. */
PANEL_NODISCARD static inline enum panel_number panel_drop(struct panel *p, unsigned place) {
    return (enum panel_number)tihvomen_drop(p->places, place);
}

/* Writes the record of the tree that the place holds. Numbers: 8, 9, 10. */
PANEL_NODISCARD static inline struct panel_answer panel_fetch_record(
    const struct panel *p, unsigned place, uint8_t *out, size_t room) {
    uint8_t spare = 0;
    return panel_answered(tihvomen_fetch_record(p->places, place, panel_into(out, room, &spare), room));
}

/* Writes the row of the tree that the place holds: the row last put there. Numbers: 8, 9, 10. */
PANEL_NODISCARD static inline struct panel_answer panel_fetch_row(
    const struct panel *p, unsigned place, uint8_t *out, size_t room) {
    uint8_t spare = 0;
    return panel_answered(tihvomen_fetch_row(p->sheet.words, p->places, place, panel_into(out, room, &spare), room));
}

/* Writes 256 bytes: the record's length, the record, and 00 for the rest; without a tree 00 throughout. Numbers: 8, 10. */
PANEL_NODISCARD static inline struct panel_answer panel_image(
    const struct panel *p, unsigned place, uint8_t *out, size_t room) {
    uint8_t spare = 0;
    return panel_answered(tihvomen_image(p->places, place, panel_into(out, room, &spare), room));
}

/* Writes the record of the row's conflict-free tree. Numbers: 1, 3, 6, 10. */
PANEL_NODISCARD static inline struct panel_answer panel_build(
    const struct panel *p, const uint8_t *row, size_t length, uint8_t *out, size_t room) {
    uint8_t spare = 0;
    const uint8_t *from = panel_from(row, length);
    return panel_answered(tihvomen_build(p->sheet.words, from, length, panel_into(out, room, &spare), room));
}

/*
 * Writes the record of the conflict-free tree of the record's row; it is as long as the record. Records of one row have
 * the same repair, and records of different rows never. Numbers: 1, 3, 7, 1, 10.
 */
PANEL_NODISCARD static inline struct panel_answer panel_repair(
    const struct panel *p, const uint8_t *record, size_t length, uint8_t *out, size_t room) {
    uint8_t spare = 0;
    const uint8_t *from = panel_from(record, length);
    return panel_answered(tihvomen_repair(p->sheet.words, from, length, panel_into(out, room, &spare), room));
}

/* Writes the row of the record's tree. Numbers: 1, 3, 7, 1, 10. */
PANEL_NODISCARD static inline struct panel_answer panel_yield(
    const struct panel *p, const uint8_t *record, size_t length, uint8_t *out, size_t room) {
    uint8_t spare = 0;
    const uint8_t *from = panel_from(record, length);
    return panel_answered(tihvomen_yield(p->sheet.words, from, length, panel_into(out, room, &spare), room));
}

/*
 * Writes the shortest row that means the same as the record's row: the conflict-free trees of the two agree once their
 * brackets are taken out. No pair of its brackets can be dropped; without prefix operators no other row that means the same
 * is as short. It has at most as many tokens as the record's row. Numbers: 1, 3, 7, 1, 10.
 */
PANEL_NODISCARD static inline struct panel_answer panel_shortest_row(
    const struct panel *p, const uint8_t *record, size_t length, uint8_t *out, size_t room) {
    uint8_t spare = 0;
    const uint8_t *from = panel_from(record, length);
    return panel_answered(tihvomen_shortest_row(p->sheet.words, from, length, panel_into(out, room, &spare), room));
}

/* Counts, over the operators of the record's tree, the excluded ones that each finds in its operands. Numbers: 1, 3, 7, 1. */
PANEL_NODISCARD static inline struct panel_judgement panel_judge(
    const struct panel *p, const uint8_t *record, size_t length) {
    struct panel_raw_judgement raw = tihvomen_judge(p->sheet.words, panel_from(record, length), length);
    struct panel_judgement judgement;
    judgement.number = (enum panel_number)raw.number;
    judgement.count = raw.count;
    return judgement;
}

/*
 * Points out, in the caller's record, the record of an operand of the top node. The only tree of a bracket or of a prefix
 * operator is taken for its left operand. A side that is neither of the two has none. Numbers: 1, 3, 7, 1.
 */
PANEL_NODISCARD static inline struct panel_part panel_operand(
    const struct panel *p, const uint8_t *record, size_t length, enum panel_side side) {
    const uint8_t *from = panel_from(record, length);
    struct panel_raw_part part = {0, 0};
    struct panel_part operand;
    if (side == PANEL_LEFT_SIDE || side == PANEL_RIGHT_SIDE)
        part = tihvomen_operand(p->sheet.words, from, length, side == PANEL_RIGHT_SIDE);
    operand.number = (enum panel_number)tihvomen_operand_number(p->sheet.words, from, length);
    operand.offset = part.from;
    operand.length = part.to - part.from;
    return operand;
}

/*
 * The binding powers of an infix operator of the sheet in force, from 1 to 64. Of two infix operators with an operand
 * between them the left one closes first, and so takes the operand, exactly if the left power of the right one is at most
 * its own right power. A parser that compares powers in this way reads each row without prefix operators as the panel
 * does. Operators of one left power are a level; a level of a higher power binds tighter. A level groups to the left if
 * the right powers in it are as high, and to the right if they are one less. Numbers: 3, also for a prefix operator.
 */
PANEL_NODISCARD static inline struct panel_powers panel_powers(const struct panel *p, unsigned op) {
    struct panel_raw_powers raw = tihvomen_powers(p->sheet.words, op);
    struct panel_powers powers;
    powers.number = (enum panel_number)raw.number;
    powers.left = raw.left;
    powers.right = raw.right;
    return powers;
}

/*
 * Runs one line of hexadecimal, without its line end, as the program `panel` does, and writes the reply: the number and on
 * success the answer, in digits, without a line end. Answers the reply's length. The output must have room for
 * PANEL_MOST_REPLY characters.
 */
PANEL_NODISCARD static inline size_t panel_reply(
    struct panel *p, const char *line, size_t length, char out[PANEL_MOST_REPLY]) {
    const uint8_t *from = panel_from((const uint8_t *)line, length);
    return tihvomen_reply(p->sheet.words, p->stage.words, p->places, from, length, (uint8_t *)out);
}

#endif
