/*
 * The stack that each call takes, measured on a painted stack of its own over the deepest lists and over random ones.
 * Prints a table, and fails if a call takes more than panel_stack.h says, or much less. Link with -z now: a function that
 * is looked up when it is first called takes stack for that.
 */
#include "painted_stack.h"

#include "measured_calls.h"

#include <stdio.h>

enum { ROUNDING = 128, SLACK = 512, RANDOM_LISTS = 400 };

/* Measures the calls that look at this, each from the same panel. */
static void measure(enum lends lends) {
    const size_t empty = bytes_taken_by(do_nothing);
    const struct panel before = p;
    for (size_t i = 0; i < CALLS; i++) {
        if (calls[i].lends != lends)
            continue;
        size_t taken = bytes_taken_by(calls[i].run) - empty;
        if (taken > calls[i].most)
            calls[i].most = taken;
        p = before;
    }
}

static void add_digits(uint8_t byte) {
    static const char digits[] = "0123456789abcdef";
    if (line_length + 2 <= sizeof line) {
        line[line_length++] = digits[byte >> 4];
        line[line_length++] = digits[byte & 15];
    }
}

/* Measures the reply to a line: its kind, a byte where one is to follow, and a list. */
static void measure_line(uint8_t kind, bool has_byte, uint8_t byte, const struct list *list) {
    line_length = 0;
    add_digits(kind);
    if (has_byte)
        add_digits(byte);
    for (size_t i = 0; i < list->length; i++)
        add_digits(list->bytes[i]);
    measure(LINE);
}

/*
 * Claims with this list: as a record, with a row of one reading and with its own; as a row, with the record that is built
 * of it.
 */
static void measure_claims(void) {
    static const struct list reading = {1, {PANEL_FIRST_READING}};
    claimed_row = reading;
    claimed = lent;
    measure(CLAIM);
    make_row(&claimed_row, &p, &lent);
    measure(CLAIM);
    claimed_row = lent;
    make_record(&claimed, &p, &lent);
    measure(CLAIM);
}

/* All calls on this panel with this list, but for those with sheets. */
static void measure_list(void) {
    static const struct list nothing = {0, {0}};
    measure(NOTHING);
    for (int which = 0; which < 2; which++) {
        side = which == 0 ? PANEL_LEFT_SIDE : PANEL_RIGHT_SIDE;
        measure(LIST);
    }
    measure_claims();
    for (uint8_t kind = 0; kind <= 10; kind++) {
        measure_line(kind, kind != 7 && kind != 8, (uint8_t)place, &lent);
        measure_line(kind, true, (uint8_t)place, &nothing);
    }
}

/* The stagings of 2,048 rules. */
static void measure_stagings(void) {
    for (int sheet = 0; sheet < SHEETS; sheet++)
        for (size_t count = PANEL_MOST_RULES; count <= PANEL_MOST_RULES + 1; count++) {
            make_sheet(&staged, sheet, count);
            for (size_t i = 0; i < count; i++) {
                const uint8_t *rule = staged.bytes + PANEL_MOST_OPERATORS + 3 * i;
                rule_list[i].kind = rule[0];
                rule_list[i].first = rule[1];
                rule_list[i].second = rule[2];
            }
            measure(RULES);
            measure_line(1, true, PANEL_MOST_OPERATORS, &staged);
        }
}

/* The switches of this panel: with nothing staged, then with each of the good sheets. */
static void measure_switches(void) {
    static const struct list nothing = {0, {0}};
    measure(STAGE);
    for (int sheet = ALL_LEFT; sheet <= CHAIN; sheet++) {
        make_sheet(&staged, sheet, PANEL_MOST_RULES);
        do_stage();
        measure(STAGE);
        measure_line(10, false, 0, &nothing);
    }
}

/* Every place of the panel gets the list: by a call, or as bytes that no call puts there. */
static bool fill(bool by_call) {
    size_t length = lent.length < PANEL_MOST_TOKENS ? lent.length : PANEL_MOST_TOKENS;
    for (unsigned i = 0; i < PANEL_PLACES; i++)
        if (!by_call) {
            p.places[i * PANEL_IMAGE_BYTES] = (uint8_t)length;
            memcpy(p.places + i * PANEL_IMAGE_BYTES + 1, lent.bytes, length);
        } else if (panel_put_row(&p, i, lent.bytes, lent.length) != PANEL_ACCEPTED &&
                   panel_put_record(&p, i, lent.bytes, lent.length) != PANEL_ACCEPTED) {
            return false;
        }
    return true;
}

/* The list on panels with this sheet that hold it everywhere, and with switches if it is one of the deepest. */
static void measure_on(const struct panel *sheet, bool deepest) {
    for (int by_call = 0; by_call < 2; by_call++) {
        p = *sheet;
        place = below(PANEL_PLACES);
        if (!fill(by_call != 0))
            continue;
        measure_list();
        if (deepest)
            measure_switches();
    }
}

static bool measure_all(void) {
    static const char *const letters[] = {
        "L", "R", "B", "P", "LR", "LB", "RB", "PL", "PR", "PB", "LRB", "BBL", "BBR", "PPL", "PPR", "?"};
    static const size_t nodes[] = {126, 127, 128, 84, 169, 190, 254, 255};
    enum { LETTERS = sizeof letters / sizeof letters[0], NODES = sizeof nodes / sizeof nodes[0] };
    static const uint8_t parts[][3] = {
        {0x00, 0x00, 0x00}, {0x20, 0x20, 0x20}, {0x80, 0x80, 0x80}, {0x00, 0x20, 0x00}, {0x20, 0x80, 0x00},
        {0x80, 0x00, 0x20}, {0x00, 0x80, 0x20}, {0x20, 0x00, 0x80}, {0x1F, 0x1E, 0x1D}, {0x20, 0x80, 0x21}};
    for (int which = ALL_LEFT; which <= CHAIN; which++) {
        struct panel sheet = PANEL_FRESH;
        struct list record;
        make_sheet(&staged, which, PANEL_MOST_RULES);
        if (panel_stage(&sheet, PANEL_MOST_OPERATORS, staged.bytes, staged.length) != PANEL_ACCEPTED)
            return false;
        if (panel_switch(&sheet) != PANEL_ACCEPTED)
            return false;
        for (size_t i = 0; i < 2 * LETTERS * NODES; i++) {
            make_spine(&record, letters[i / (2 * NODES)], nodes[i / 2 % NODES], i % 2 == 0);
            lent = record;
            measure_on(&sheet, true);
            make_row(&lent, &sheet, &record);
            measure_on(&sheet, i % 2 == 0);
        }
        for (size_t i = 0; i < sizeof parts / sizeof parts[0]; i++)
            for (size_t length = 254; length <= 256; length++) {
                make_repeated(&lent, parts[i], 3, length);
                measure_on(&sheet, length == 255);
            }
        for (int i = 0; i < RANDOM_LISTS; i++) {
            make_spine(&record, "?", below(160), false);
            make_row(&lent, &sheet, &record);
            if (i % 2 == 0)
                lent = record;
            damage(&lent);
            measure_on(&sheet, i % 16 == 0);
            if (i % 16 == 0)
                measure_stagings();
        }
    }
    return true;
}

int main(void) {
    bool wrong = !measure_all();
    printf("%-14s %8s %8s\n", "call", "bytes", "stated");
    for (size_t i = 0; i < CALLS; i++) {
        const struct call *call = &calls[i];
        bool more = call->most > call->stated;
        bool less = call->stated > call->most + SLACK && 4 * call->stated > 5 * call->most;
        const char *verdict = more ? "  too little" : less ? "  too much" : "";
        printf("%-14s %8zu %8zu%s\n", call->name, call->most, call->stated, verdict);
        wrong = wrong || more || less || call->stated % ROUNDING != 0;
    }
    return wrong;
}
