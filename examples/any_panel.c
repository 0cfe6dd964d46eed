/*
 * Panels that no run of calls makes: each "also gets one fixed answer, and the call still ends". Silent if all is well.
 */
#include "check.h"
#include "panel_evaluate.h"

#include <string.h>

static uint8_t next_byte(uint32_t *state) {
    *state = *state * 1664525u + 1013904223u;
    return (uint8_t)(*state >> 24);
}

/* Some bytes of a sheet become others. */
static void damage(struct panel_sheet *sheet, uint32_t changes, uint32_t *state) {
    uint8_t *bytes = (uint8_t *)sheet;
    for (; changes > 0; changes--) {
        uint8_t at = (uint8_t)(next_byte(state) % sizeof *sheet);
        bytes[at] = next_byte(state);
    }
}

/*
 * A panel that no run of calls makes: a sheet of 32 operators with some bytes changed, the same on the stage or nothing
 * with some bytes changed, and places of any bytes.
 */
static void scramble(struct panel *p, uint32_t state) {
    uint8_t bytes[32 + 3 * 32 * 32];
    const uint32_t changes = state % 40;
    for (int i = 0; i < 32; i++)
        bytes[i] = i % 8 == 3 ? PANEL_PREFIX : PANEL_INFIX;
    for (int pair = 0; pair < 32 * 32; pair++) {
        bytes[32 + 3 * pair] = PANEL_LEFT;
        bytes[32 + 3 * pair + 1] = (uint8_t)(pair / 32);
        bytes[32 + 3 * pair + 2] = (uint8_t)(pair % 32);
    }
    panel_fresh(p);
    CHECK(panel_stage(p, 32, bytes, sizeof bytes) == PANEL_ACCEPTED && panel_switch(p) == PANEL_ACCEPTED);
    if (state % 3 > 0)
        CHECK(panel_stage(p, 32, bytes, sizeof bytes) == PANEL_ACCEPTED);
    damage(&p->sheet, changes, &state);
    damage(&p->stage, next_byte(&state) % 4, &state);
    for (size_t i = 0; i < sizeof p->places; i++)
        p->places[i] = next_byte(&state);
}

/* The record has the row of these tokens. */
static bool has_row(const struct panel *p, const uint8_t *record, size_t length, const uint8_t *tokens, size_t count) {
    uint8_t row[300];
    struct panel_answer answer = panel_yield(p, record, length, row, sizeof row);
    return answer.number == PANEL_ACCEPTED && answer.length == count && memcmp(row, tokens, count) == 0;
}

/* A row and a record of it; of which kind a panel takes the operators to be is not known. */
static const uint8_t long_row[] = {
    0x80, 0x07, 0x20, 0x81, 0x00, 0x03, 0x82, 0x21, 0x00, 0x83, 0x1F, 0x0B, 0x84, 0x00, 0x85, 0x1E, 0x86};
static const uint8_t long_record[] = {
    0x1F, 0x00, 0x07, 0x80, 0x20, 0x00, 0x81, 0x03, 0x82, 0x83, 0x1E, 0x00, 0x0B, 0x84, 0x85, 0x86};

/* What such a panel builds of the row, and repairs of the record, has that row. Answers whether it takes the row. */
static bool check_rows_of(const struct panel *p) {
    static const uint8_t strange_row[] = {0x80, 0x22, 0x81}, strange_record[] = {0x22, 0x80, 0x81};
    uint8_t out[300], row[300];
    struct panel_answer built, repaired, shortest;
    CHECK(panel_build(p, strange_row, sizeof strange_row, out, sizeof out).number == PANEL_STRANGER);
    CHECK(panel_repair(p, strange_record, sizeof strange_record, out, sizeof out).number == PANEL_STRANGER);
    CHECK(panel_shortest_row(p, strange_record, sizeof strange_record, out, sizeof out).number == PANEL_STRANGER);
    shortest = panel_shortest_row(p, long_record, sizeof long_record, out, sizeof out);
    repaired = panel_repair(p, long_record, sizeof long_record, out, sizeof out);
    CHECK(shortest.number == repaired.number && shortest.length <= sizeof long_row);
    if (repaired.number == PANEL_ACCEPTED) {
        size_t length = panel_yield(p, long_record, sizeof long_record, row, sizeof row).length;
        CHECK(repaired.length == sizeof long_record && has_row(p, out, sizeof long_record, row, length));
    }
    built = panel_build(p, long_row, sizeof long_row, out, sizeof out);
    CHECK((built.number == PANEL_STRANGER) == (repaired.number == PANEL_STRANGER));
    if (built.number != PANEL_ACCEPTED)
        return false;
    CHECK(built.length == sizeof long_record && has_row(p, out, sizeof long_record, long_row, sizeof long_row));
    return true;
}

/*
 * An evaluation gives the number that a fetch of the row with room enough gives; where that is 0, it gives 0, 13 or 14.
 * Counts the numbers.
 */
static void check_values_of(const struct panel *p, int *seen) {
    static const uint8_t meanings[] = {1, 2, 3, 10, 5, 6, 7, 8, 9, 0, 10, 11, 9, 8, 7, 6, 5, 4, 3, 255, 1};
    static const int32_t readings[100] = {INT32_MIN, INT32_MAX, -1, 0, 1};
    const struct panel copy = *p;
    for (unsigned place = 0; place < PANEL_PLACES; place++) {
        uint8_t out[PANEL_MOST_TOKENS];
        enum panel_number number = panel_fetch_row(p, place, out, sizeof out).number;
        struct panel_value one = panel_evaluate(p, place, meanings, sizeof meanings, readings, 100);
        struct panel_value other = panel_evaluate(&copy, place, meanings, sizeof meanings, readings, 100);
        bool of_tree = one.number == PANEL_NO_MEANING || one.number == PANEL_NO_READING || one.number == PANEL_ACCEPTED;
        CHECK(number == PANEL_ACCEPTED ? of_tree : one.number == number);
        CHECK(one.number == PANEL_ACCEPTED || one.value == 0);
        CHECK(one.number == other.number && one.value == other.value);
        seen[one.number]++;
    }
}

/*
 * An operator has powers exactly if it is infix, which a row with it shows. They are from 1 to 64, and the right one is the
 * left one or one less.
 */
static void check_powers_of(const struct panel *p) {
    const struct panel copy = *p;
    for (unsigned op = 0; op <= UINT8_MAX; op++) {
        const uint8_t tokens[] = {0x80, (uint8_t)op, 0x81};
        uint8_t out[3];
        struct panel_powers one = panel_powers(p, op), other = panel_powers(&copy, op);
        CHECK(one.number == other.number && one.left == other.left && one.right == other.right);
        if (panel_build(p, tokens, sizeof tokens, out, sizeof out).number == PANEL_ACCEPTED)
            CHECK(one.number == PANEL_ACCEPTED && one.left % 2 == 0 && one.left >= 2 && one.left <= 64 &&
                  (one.right == one.left || one.right + 1 == one.left));
        else
            CHECK(one.number == PANEL_STRANGER && one.left == 0 && one.right == 0);
    }
}

/* The number that a claim has by the answers of other calls: the row's, the record's, 16 or 17. */
static enum panel_number number_of_claim(
    const struct panel *p, const uint8_t *row, size_t row_length, const uint8_t *record, size_t length) {
    uint8_t out[300];
    enum panel_number of_row = panel_build(p, row, row_length, out, sizeof out).number;
    struct panel_judgement judged = panel_judge(p, record, length);
    if (of_row != PANEL_ACCEPTED || judged.number != PANEL_ACCEPTED)
        return of_row != PANEL_ACCEPTED ? of_row : judged.number;
    if (!has_row(p, record, length, row, row_length))
        return PANEL_OTHER_ROW;
    return judged.count == 0 ? PANEL_ACCEPTED : PANEL_CONFLICT;
}

/* An accepted claim is held as it was sent and changes nothing else; a refused one changes nothing. Counts the numbers. */
static void check_claim(
    const struct panel *p, const uint8_t *row, size_t row_length, const uint8_t *record, size_t length, int *seen) {
    enum { PLACE = 3 };
    struct panel claimed = *p, expected = *p;
    enum panel_number number = panel_put_claim(&claimed, PLACE, row, row_length, record, length);
    CHECK(number == number_of_claim(p, row, row_length, record, length));
    if (number == PANEL_ACCEPTED) {
        uint8_t *image = expected.places + PLACE * PANEL_IMAGE_BYTES;
        memset(image, 0, PANEL_IMAGE_BYTES);
        image[0] = (uint8_t)length;
        memcpy(image + 1, record, length);
    }
    CHECK(memcmp(&claimed, &expected, sizeof claimed) == 0);
    seen[number]++;
}

/* The long row with what the panel builds of it, with the long record and with another; other rows, and what is no tree. */
static void check_claims_of(const struct panel *p, int *seen) {
    static const uint8_t strange[] = {0x80, 0x22, 0x81};
    uint8_t built[300];
    size_t length = panel_build(p, long_row, sizeof long_row, built, sizeof built).length;
    check_claim(p, long_row, sizeof long_row, built, length, seen);
    check_claim(p, long_row, sizeof long_row, long_record, sizeof long_record, seen);
    check_claim(p, long_row, 1, long_record, sizeof long_record, seen);
    check_claim(p, long_row, sizeof long_row, long_row, 1, seen);
    check_claim(p, long_row, 2, long_record, sizeof long_record, seen);
    check_claim(p, long_row, 1, long_record, sizeof long_record - 1, seen);
    check_claim(p, strange, sizeof strange, long_record, sizeof long_record, seen);
}

/* The same with at most three bytes at a place, so that some hold trees; at place 0, 128 brackets around a reading. */
static struct panel shortened(struct panel p) {
    for (size_t place = 1; place < PANEL_PLACES; place++)
        p.places[place * PANEL_IMAGE_BYTES] %= 4;
    p.places[0] = 129;
    memset(p.places + 1, 0x20, 128);
    p.places[129] = 0x80;
    return p;
}

/* A switch of a panel and of its copy: the same number, then the same bytes; refused, those of before. Counts the numbers. */
static void check_switch(struct panel *p, struct panel *copy, int *seen) {
    const struct panel before = *p;
    enum panel_number number = panel_switch(p);
    CHECK(panel_switch(copy) == number && memcmp(p, copy, sizeof *p) == 0);
    CHECK(number == PANEL_ACCEPTED || memcmp(p, &before, sizeof before) == 0);
    seen[number]++;
}

/* A copy of such a panel gets the same answers. */
int main(void) {
    static const uint8_t sheet_a[] = {0, 0, 1, 1, 0, 2, 1, 1, 2, 0, 0};
    static const uint8_t row[] = {0x20, 0x80, 0x00, 0x81, 0x21, 0x01, 0x82};
    static const int met[] = {0, 1, 3, 7, 9, 13, 14}, switched[] = {0, 11, 15}, claimed[] = {0, 3, 6, 7, 16, 17};
    int taken = 0, seen[PANEL_NO_READING + 1] = {0}, switches[PANEL_NOTHING_STAGED + 1] = {0};
    int claims[PANEL_CONFLICT + 1] = {0};
    for (uint32_t seed = 0; seed < 500; seed++) {
        struct panel p, copy, short_places;
        uint8_t one[300] = {0}, other[300] = {0};
        scramble(&p, seed);
        memcpy(&copy, &p, sizeof p);
        taken += check_rows_of(&p);
        for (unsigned place = 0; place < PANEL_PLACES; place++) {
            CHECK(panel_fetch_record(&p, place, one, 300).number == panel_fetch_record(&copy, place, other, 300).number);
            CHECK(panel_fetch_row(&p, place, one, 300).number == panel_fetch_row(&copy, place, other, 300).number);
            CHECK(memcmp(one, other, sizeof one) == 0);
        }
        short_places = shortened(p);
        check_powers_of(&p);
        check_claims_of(&p, claims);
        check_values_of(&p, seen);
        check_values_of(&short_places, seen);
        check_switch(&p, &copy, switches);
        CHECK(panel_stage(&p, 2, sheet_a, sizeof sheet_a) == panel_stage(&copy, 2, sheet_a, sizeof sheet_a));
        check_switch(&p, &copy, switches);
        CHECK(panel_put_row(&p, 3, row, sizeof row) == panel_put_row(&copy, 3, row, sizeof row));
        CHECK(memcmp(&p, &copy, sizeof p) == 0);
    }
    CHECK(taken > 0);
    for (size_t i = 0; i < sizeof met / sizeof met[0]; i++)
        CHECK(seen[met[i]] > 0);
    for (size_t i = 0; i < sizeof switched / sizeof switched[0]; i++)
        CHECK(switches[switched[i]] > 0);
    for (size_t i = 0; i < sizeof claimed / sizeof claimed[0]; i++)
        CHECK(claims[claimed[i]] > 0);
    return failures != 0;
}
