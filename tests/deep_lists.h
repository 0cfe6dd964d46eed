/* Lists of bytes that take a call deep: rows and records of spines, good and damaged, and sheets of 32 operators. */
#ifndef TIHVOMEN_DEEP_LISTS_H
#define TIHVOMEN_DEEP_LISTS_H

#include "panel.h"

#include <string.h>

/* The operators from FIRST_PREFIX on are prefix ones. */
enum { FIRST_PREFIX = 24, MOST_BYTES = PANEL_MOST_OPERATORS + 3 * (PANEL_MOST_RULES + 1) };

struct list {
    size_t length;
    uint8_t bytes[MOST_BYTES];
};

static uint32_t random_state = 1;

/* A random number below the bound. */
static uint32_t below(uint32_t bound) {
    random_state = random_state * 1664525u + 1013904223u;
    return (random_state >> 8) % bound;
}

static void add(struct list *list, uint8_t byte) {
    if (list->length < MOST_BYTES)
        list->bytes[list->length++] = byte;
}

/*
 * The record of a spine: a tree in which each node has one operand with nodes below it. A letter says for each node which
 * one: L the left one, R the right one, B that the node is a bracket, P that it is a prefix operator. The letters are used
 * again and again; a ? is one of them at random. The row has one token for each P, two for each other node, and one.
 */
static void make_spine(struct list *list, const char *letters, size_t nodes, bool same_operator) {
    size_t lefts = 0;
    list->length = 0;
    for (size_t i = 0; i < nodes; i++) {
        char letter = letters[i % strlen(letters)];
        if (letter == '?')
            letter = "LRBP"[below(4)];
        if (letter == 'B')
            add(list, PANEL_OPENING);
        else if (letter == 'P')
            add(list, (uint8_t)(FIRST_PREFIX + (same_operator ? 0 : below(PANEL_MOST_OPERATORS - FIRST_PREFIX))));
        else
            add(list, (uint8_t)(same_operator ? 0 : below(FIRST_PREFIX)));
        if (letter == 'R')
            add(list, (uint8_t)(PANEL_FIRST_READING + i % 128));
        lefts += letter == 'L';
    }
    for (size_t i = 0; i <= lefts; i++)
        add(list, (uint8_t)(PANEL_FIRST_READING + i % 128));
}

/* The row of a record, or nothing if it has none. */
static void make_row(struct list *row, const struct panel *p, const struct list *record) {
    row->length = panel_yield(p, record->bytes, record->length, row->bytes, MOST_BYTES).length;
}

/* The record that is built of a row, or nothing if the row is refused. */
static void make_record(struct list *record, const struct panel *p, const struct list *row) {
    record->length = panel_build(p, row->bytes, row->length, record->bytes, MOST_BYTES).length;
}

/* The same bytes over and over. */
static void make_repeated(struct list *list, const uint8_t *bytes, size_t length, size_t total) {
    list->length = 0;
    for (size_t i = 0; i < total; i++)
        add(list, bytes[i % length]);
}

/* A few bytes become others, and the end may be cut off. */
static void damage(struct list *list) {
    static const uint8_t bytes[] = {0x00, 0x1F, 0x20, 0x21, 0x80, 0x22};
    for (uint32_t changes = below(4); changes > 0 && list->length > 0; changes--)
        list->bytes[below((uint32_t)list->length)] = bytes[below(sizeof bytes)];
    if (below(4) == 0)
        list->length -= below((uint32_t)list->length + 1);
}

/*
 * Kinds of sheets for make_sheet. The first three are good. UNEVEN is ALL_LEFT but for 00 with 01: a row of three
 * operators has two trees, and none of two has.
 */
enum { ALL_LEFT, ALL_RIGHT, CHAIN, BOTH_WAYS, ANY_RULES, ONE_PAIR, UNEVEN, SHEETS };

/* The kinds of 32 operators and so many rules; the good sheets say some of theirs again. */
static void make_sheet(struct list *list, int sheet, size_t count) {
    list->length = 0;
    for (int i = 0; i < PANEL_MOST_OPERATORS; i++)
        add(list, i < FIRST_PREFIX ? PANEL_INFIX : PANEL_PREFIX);
    for (size_t i = 0; i < count; i++) {
        uint8_t kind = sheet == ALL_RIGHT ? PANEL_RIGHT : PANEL_LEFT;
        uint8_t first = (uint8_t)(i / 32 % 32), second = (uint8_t)(i % 32);
        if (sheet == CHAIN) {
            bool over = i % 64 < 31;
            kind = over ? PANEL_PRIORITY : PANEL_LEFT;
            first = second;
            second = (uint8_t)(second + over);
        } else if (sheet == BOTH_WAYS && i >= 1024) {
            kind = PANEL_RIGHT;
        } else if (sheet == ANY_RULES) {
            kind = (uint8_t)(1 + below(3));
            first = (uint8_t)below(32);
            second = (uint8_t)below(32);
        } else if (sheet == ONE_PAIR) {
            first = second = 0;
        } else if (sheet == UNEVEN && first == 0 && second == 1) {
            kind = PANEL_RIGHT;
            first = 1;
            second = 0;
        }
        add(list, kind);
        add(list, first);
        add(list, second);
    }
}

#endif
