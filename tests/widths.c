/*
 * Numbers that no byte holds, for every call that takes a place, an operator or a count of operators: cut to a byte they
 * would be good ones. Sides that are none, and the ends of the sizes. Silent if all is well.
 */
#include "check.h"
#include "lent_output.h"
#include "panel_evaluate.h"
#include "panel_explain.h"

#include <limits.h>
#include <string.h>

static const uint8_t sheet_a[] = {0, 0, 1, 1, 0, 2, 1, 1, 2, 0, 0};
static const uint8_t row[] = {0x20, 0x80, 0x00, 0x81, 0x21, 0x01, 0x82};
static const uint8_t record[] = {0x01, 0x20, 0x00, 0x80, 0x81, 0x82};
static uint8_t out[300];

/* A panel with sheet A in force and staged, and trees at the places 0 and 3. */
static struct panel filled(void) {
    struct panel p = PANEL_FRESH;
    CHECK(panel_stage(&p, 2, sheet_a, sizeof sheet_a) == PANEL_ACCEPTED && panel_switch(&p) == PANEL_ACCEPTED);
    CHECK(panel_stage(&p, 2, sheet_a, sizeof sheet_a) == PANEL_ACCEPTED);
    CHECK(panel_put_row(&p, 0, row, sizeof row) == PANEL_ACCEPTED);
    CHECK(panel_put_row(&p, 3, row + 1, 3) == PANEL_ACCEPTED);
    return p;
}

static void check_places(void) {
    static const unsigned places[] = {16, 255, 256, 259, 65536, 65536 + 3, INT_MAX, INT_MAX + 1u, 0u - 256, UINT_MAX};
    static const uint8_t meanings[] = {PANEL_SUM, PANEL_SUM};
    static const int32_t readings[] = {1, 2, 3};
    struct panel p = filled();
    const struct panel before = p;
    for (size_t i = 0; i < sizeof places / sizeof places[0]; i++) {
        struct panel_value evaluated = panel_evaluate(&p, places[i], meanings, 2, readings, 3);
        CHECK(evaluated.number == PANEL_PLACE && evaluated.value == 0);
        CHECK(panel_put_row(&p, places[i], row, sizeof row) == PANEL_PLACE);
        CHECK(panel_put_record(&p, places[i], record, sizeof record) == PANEL_PLACE);
        CHECK(panel_put_claim(&p, places[i], row, sizeof row, record, sizeof record) == PANEL_PLACE);
        CHECK(panel_drop(&p, places[i]) == PANEL_PLACE);
        CHECK(untouched(panel_fetch_record(&p, places[i], out, sizeof out), PANEL_PLACE, out, sizeof out));
        CHECK(untouched(panel_fetch_row(&p, places[i], out, sizeof out), PANEL_PLACE, out, sizeof out));
        CHECK(untouched(panel_image(&p, places[i], out, sizeof out), PANEL_PLACE, out, sizeof out));
    }
    CHECK(memcmp(&p, &before, sizeof p) == 0);
}

static void check_counts(void) {
    static const unsigned counts[] = {33, 255, 256, 258, 65536, 65536 + 2, INT_MAX, INT_MAX + 1u, 0u - 254, UINT_MAX};
    static const struct panel_rule rules[] = {{PANEL_PRIORITY, 1, 0}, {PANEL_LEFT, 1, 1}, {PANEL_LEFT, 0, 0}};
    static const uint8_t kinds[PANEL_MOST_OPERATORS] = {PANEL_INFIX};
    struct panel p = filled();
    const struct panel before = p;
    for (size_t i = 0; i < sizeof counts / sizeof counts[0]; i++) {
        CHECK(panel_stage(&p, counts[i], sheet_a, sizeof sheet_a) == PANEL_OVERSIZE);
        CHECK(panel_stage(&p, counts[i], NULL, 0) == PANEL_OVERSIZE);
        CHECK(panel_stage_rules(&p, counts[i], sheet_a, 2, rules, 3) == PANEL_OVERSIZE);
        CHECK(panel_stage_rules(&p, counts[i], NULL, 0, NULL, 0) == PANEL_OVERSIZE);
        CHECK(untouched(panel_explain(counts[i], sheet_a, sizeof sheet_a, out, sizeof out), PANEL_OVERSIZE, out, sizeof out));
        CHECK(untouched(panel_explain(counts[i], NULL, 0, NULL, 0), PANEL_OVERSIZE, out, sizeof out));
        CHECK(untouched(
            panel_explain_rules(counts[i], sheet_a, 2, rules, 3, out, sizeof out), PANEL_OVERSIZE, out, sizeof out));
        CHECK(untouched(panel_explain_rules(counts[i], NULL, 0, NULL, 0, NULL, 0), PANEL_OVERSIZE, out, sizeof out));
    }
    CHECK(panel_stage(&p, PANEL_MOST_OPERATORS, kinds, PANEL_MOST_OPERATORS) == PANEL_DOUBLE);
    CHECK(panel_stage(&p, PANEL_MOST_OPERATORS, NULL, 0) == PANEL_TORN);
    CHECK(panel_stage(&p, PANEL_MOST_OPERATORS + 1, NULL, 0) == PANEL_OVERSIZE);
    CHECK(panel_explain(PANEL_MOST_OPERATORS, NULL, 0, out, sizeof out).number == PANEL_TORN);
    CHECK(memcmp(&p, &before, sizeof p) == 0);
}

static void check_operators(void) {
    static const unsigned operators[] = {2, 31, 32, 255, 256, 257, 65536, 65536 + 1, INT_MAX, INT_MAX + 1u, 0u - 256, UINT_MAX};
    const struct panel p = filled();
    for (size_t i = 0; i < sizeof operators / sizeof operators[0]; i++) {
        struct panel_powers powers = panel_powers(&p, operators[i]);
        CHECK(powers.number == PANEL_STRANGER && powers.left == 0 && powers.right == 0);
    }
    CHECK(panel_powers(&p, 0).left == 2 && panel_powers(&p, 1).left == 4);
}

/* C++ has no values for a side beyond the two. */
#ifndef __cplusplus
static void check_sides(void) {
    static const int sides[] = {2, -1, 255, 256, 257, INT_MIN};
    const struct panel p = filled();
    for (size_t i = 0; i < sizeof sides / sizeof sides[0]; i++) {
        struct panel_part good = panel_operand(&p, record, sizeof record, (enum panel_side)sides[i]);
        struct panel_part cut = panel_operand(&p, record, sizeof record - 1, (enum panel_side)sides[i]);
        CHECK(good.number == PANEL_ACCEPTED && good.offset == 0 && good.length == 0);
        CHECK(cut.number == PANEL_NO_TREE && cut.offset == 0 && cut.length == 0);
    }
}
#else
static void check_sides(void) {}
#endif

/* The longest line is looked at, and one of a character more is not. */
static void check_lines(void) {
    static char line[PANEL_MOST_LINE + 1];
    struct panel p = PANEL_FRESH;
    char reply[PANEL_MOST_REPLY];
    memset(line, '0', sizeof line);
    CHECK(PANEL_MOST_LINE == 12356);
    CHECK(panel_reply(&p, line, PANEL_MOST_LINE, reply) == 2 && memcmp(reply, "0c", 2) == 0);
    CHECK(panel_reply(&p, line, PANEL_MOST_LINE + 1, reply) == 2 && memcmp(reply, "01", 2) == 0);
}

/* A list of rules is lent as the bytes of its rules. A number of rules that their bytes would overflow is too many. */
static void check_rules(void) {
    static const struct panel_rule rule = {PANEL_LEFT, 0, 0};
    static const uint8_t kind = PANEL_INFIX;
    CHECK(sizeof(struct panel_rule) == 3);
    CHECK(untouched(panel_explain_rules(1, &kind, 1, &rule, PANEL_MOST_RULES + 1, out, sizeof out), PANEL_OVERSIZE, out, sizeof out));
    CHECK(untouched(panel_explain_rules(1, &kind, 1, &rule, SIZE_MAX / 3 + 2, out, sizeof out), PANEL_OVERSIZE, out, sizeof out));
    CHECK(untouched(panel_explain_rules(1, &kind, 1, &rule, SIZE_MAX, out, sizeof out), PANEL_OVERSIZE, out, sizeof out));
}

static void check_version(void) {
    char text[32];
    snprintf(text, sizeof text, "%d.%d.%d", PANEL_VERSION_MAJOR, PANEL_VERSION_MINOR, PANEL_VERSION_PATCH);
    CHECK(strcmp(text, PANEL_VERSION) == 0);
}

int main(void) {
    memset(out, 0xEE, sizeof out);
    check_places();
    check_counts();
    check_operators();
    check_sides();
    check_lines();
    check_rules();
    check_version();
    return failures != 0;
}
