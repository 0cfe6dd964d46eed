/*
 * Every call of panel.h, panel_evaluate.h and panel_explain.h once or more, against the cases of docs/REFERENCE.md,
 * section 11; lengths of 0 with NULL. Silent if all is well.
 */
#include "check.h"
#include "explanations.h"
#include "lent_output.h"
#include "panel_evaluate.h"

#include <string.h>

static const uint8_t sheet_a[] = {0, 0, 1, 1, 0, 2, 1, 1, 2, 0, 0};
static const uint8_t row[] = {0x20, 0x80, 0x00, 0x81, 0x21, 0x01, 0x82};
static const uint8_t record[] = {0x01, 0x20, 0x00, 0x80, 0x81, 0x82};
/* A row without brackets and its record under sheet A; the record of its other tree, which has a conflict there. */
static const uint8_t bare[] = {0x80, 0x00, 0x81, 0x01, 0x82}, repaired[] = {0x00, 0x80, 0x01, 0x81, 0x82};
static const uint8_t torn[] = {0x01, 0x00, 0x80, 0x81, 0x82};

static void check_trees(const struct panel *p, uint8_t *out) {
    /* (80) 00 ((81 01 82)): all brackets are spare. */
    static const uint8_t spare[] = {0x00, 0x20, 0x80, 0x20, 0x20, 0x01, 0x81, 0x82};
    CHECK(wrote(panel_build(p, row, sizeof row, out, 300), record, sizeof record, out, 300));
    CHECK(wrote(panel_build(p, row, sizeof row, out, sizeof record), record, sizeof record, out, 300));
    CHECK(untouched(panel_build(p, row, sizeof row, out, sizeof record - 1), PANEL_SHORT, out, 300));
    CHECK(untouched(panel_build(p, NULL, 0, out, 300), PANEL_NO_ROW, out, 300));
    CHECK(panel_build(p, row, sizeof row, NULL, 0).number == PANEL_SHORT);
    CHECK(wrote(panel_repair(p, torn, sizeof torn, out, 300), repaired, sizeof repaired, out, 300));
    CHECK(untouched(panel_repair(p, NULL, 0, NULL, 0), PANEL_NO_TREE, out, 300));
    CHECK(wrote(panel_yield(p, record, sizeof record, out, 300), row, sizeof row, out, 300));
    CHECK(untouched(panel_yield(p, record, sizeof record, out, 6), PANEL_SHORT, out, 300));
    CHECK(wrote(panel_shortest_row(p, record, sizeof record, out, 300), row, sizeof row, out, 300));
    CHECK(wrote(panel_shortest_row(p, spare, sizeof spare, out, 300), bare, sizeof bare, out, 300));
    CHECK(wrote(panel_shortest_row(p, spare, sizeof spare, out, sizeof bare), bare, sizeof bare, out, 300));
    CHECK(untouched(panel_shortest_row(p, spare, sizeof spare, out, sizeof bare - 1), PANEL_SHORT, out, 300));
    CHECK(untouched(panel_shortest_row(p, NULL, 0, NULL, 0), PANEL_NO_TREE, out, 300));
    CHECK(panel_judge(p, torn, sizeof torn).number == PANEL_ACCEPTED);
    CHECK(panel_judge(p, torn, sizeof torn).count == 1);
    CHECK(panel_judge(p, row, sizeof row).number == PANEL_STRANGER);
    CHECK(panel_judge(p, NULL, 0).number == PANEL_NO_TREE);
}

static void check_operands(const struct panel *p) {
    struct panel_part left = panel_operand(p, record, sizeof record, PANEL_LEFT_SIDE);
    struct panel_part right = panel_operand(p, record, sizeof record, PANEL_RIGHT_SIDE);
    CHECK(left.number == PANEL_ACCEPTED && left.offset == 1 && left.length == 4);
    CHECK(right.number == PANEL_ACCEPTED && right.offset == 5 && right.length == 1);
    left = panel_operand(p, record + 1, 4, PANEL_LEFT_SIDE);
    right = panel_operand(p, record + 1, 4, PANEL_RIGHT_SIDE);
    CHECK(left.number == PANEL_ACCEPTED && left.offset == 1 && left.length == 3);
    CHECK(right.number == PANEL_ACCEPTED && right.length == 0);
    left = panel_operand(p, record, sizeof record - 1, PANEL_LEFT_SIDE);
    CHECK(left.number == PANEL_NO_TREE && left.length == 0);
    CHECK(panel_operand(p, NULL, 0, PANEL_RIGHT_SIDE).number == PANEL_NO_TREE);
}

/* Stages a sheet and switches it in; answers the first number that is not 0. */
static enum panel_number change_sheet(struct panel *p, unsigned n, const uint8_t *bytes, size_t length) {
    enum panel_number number = panel_stage(p, n, bytes, length);
    return number == PANEL_ACCEPTED ? panel_switch(p) : number;
}

static void check_rules(struct panel *p) {
    static const struct panel_rule rules[] = {{PANEL_PRIORITY, 1, 0}, {PANEL_LEFT, 1, 1}, {PANEL_LEFT, 0, 0}};
    static const uint8_t kinds[] = {PANEL_INFIX, PANEL_INFIX, PANEL_PREFIX + 1};
    struct panel other = *p;
    CHECK(panel_stage_rules(p, 1, kinds, 1, rules, 3) == PANEL_STRANGER && memcmp(p, &other, sizeof other) == 0);
    CHECK(panel_stage_rules(p, 2, kinds, 2, NULL, 0) == PANEL_DOUBLE && memcmp(p, &other, sizeof other) == 0);
    CHECK(panel_stage_rules(p, 2, NULL, 0, rules, 3) == PANEL_TORN && memcmp(p, &other, sizeof other) == 0);
    CHECK(panel_stage_rules(p, 2, kinds, 3, rules, 3) == PANEL_TORN && memcmp(p, &other, sizeof other) == 0);
    CHECK(panel_stage_rules(p, 3, kinds, 3, rules, 3) == PANEL_STRANGER && memcmp(p, &other, sizeof other) == 0);
    CHECK(panel_stage_rules(p, 2, kinds, 2, rules, 3) == PANEL_ACCEPTED);
    CHECK(panel_stage(&other, 2, sheet_a, sizeof sheet_a) == PANEL_ACCEPTED);
    CHECK(memcmp(p, &other, sizeof other) == 0);
    CHECK(panel_switch(p) == PANEL_ACCEPTED);
}

/* A staged sheet waits for a switch and is not seen before it; sheet A is in force. */
static void check_stage(const struct panel *a, uint8_t *out) {
    static const uint8_t left[] = {PANEL_INFIX, PANEL_LEFT, 0, 0}, tokens[] = {0x80, 0x01, 0x81}, made[] = {0x01, 0x80, 0x81};
    struct panel p = *a, before = *a;
    CHECK(panel_switch(&p) == PANEL_NOTHING_STAGED && memcmp(&p, &before, sizeof p) == 0);
    CHECK(panel_put_row(&p, 3, tokens, sizeof tokens) == PANEL_ACCEPTED);
    /* The staged sheet lacks the operator that is held. */
    CHECK(panel_stage(&p, 1, left, sizeof left) == PANEL_ACCEPTED);
    CHECK(panel_operators(&p) == 2);
    CHECK(panel_put_row(&p, 4, tokens, sizeof tokens) == PANEL_ACCEPTED && panel_drop(&p, 4) == PANEL_ACCEPTED);
    CHECK(wrote(panel_fetch_record(&p, 3, out, 300), made, sizeof made, out, 300));
    /* Refused: a sheet without rules is not staged in its place, and it is not switched in. */
    before = p;
    CHECK(panel_stage(&p, 1, left, 1) == PANEL_DOUBLE && memcmp(&p, &before, sizeof p) == 0);
    CHECK(panel_stage_rules(&p, 1, left, 1, NULL, 0) == PANEL_DOUBLE && memcmp(&p, &before, sizeof p) == 0);
    CHECK(panel_switch(&p) == PANEL_IN_USE && memcmp(&p, &before, sizeof p) == 0);
    CHECK(panel_drop(&p, 3) == PANEL_ACCEPTED);
    CHECK(panel_switch(&p) == PANEL_ACCEPTED && panel_operators(&p) == 1);
    CHECK(panel_switch(&p) == PANEL_NOTHING_STAGED);
    /* A sheet without operators and rules is one; a later sheet takes its place. */
    CHECK(panel_stage(&p, 0, NULL, 0) == PANEL_ACCEPTED);
    CHECK(panel_switch(&p) == PANEL_ACCEPTED && panel_operators(&p) == 0);
    CHECK(panel_stage(&p, 0, NULL, 0) == PANEL_ACCEPTED && panel_stage(&p, 1, left, sizeof left) == PANEL_ACCEPTED);
    CHECK(panel_switch(&p) == PANEL_ACCEPTED && panel_operators(&p) == 1);
}

/* The reply to a line is this text, and the output past it is as before. */
static bool replies(struct panel *p, const char *line, const char *text) {
    char out[PANEL_MOST_REPLY + 1];
    memset(out, '#', sizeof out);
    size_t length = panel_reply(p, line, strlen(line), out);
    return length == strlen(text) && memcmp(out, text, length) == 0 && out[length] == '#';
}

static void check_lines(void) {
    struct panel p = PANEL_FRESH;
    char out[PANEL_MOST_REPLY];
    CHECK(panel_reply(&p, NULL, 0, out) == 2 && memcmp(out, "0c", 2) == 0);
    CHECK(replies(&p, "0A", "0f"));
    CHECK(replies(&p, "01020000010100020101020000", "00"));
    CHECK(replies(&p, "0a00", "0c"));
    CHECK(replies(&p, "0a", "00"));
    CHECK(replies(&p, "02038000810182", "00"));
    CHECK(replies(&p, "0403", "000080018182"));
    CHECK(replies(&p, "0304", "09"));
    CHECK(replies(&p, "01020000010001020101020000", "00"));
    CHECK(replies(&p, "0403", "000080018182"));
    CHECK(replies(&p, "0a", "00"));
    CHECK(replies(&p, "0403", "000100808182"));
    CHECK(replies(&p, "0403\r", "0c"));
    CHECK(panel_reply(&p, "0903", 4, out) == PANEL_MOST_REPLY && memcmp(out, "00050100808182", 14) == 0);
}

static void check_places(struct panel *p, uint8_t *out) {
    uint8_t image[PANEL_IMAGE_BYTES] = {sizeof record};
    memcpy(image + 1, record, sizeof record);
    CHECK(panel_put_row(p, 16, row, sizeof row) == PANEL_PLACE);
    CHECK(panel_put_row(p, 15, NULL, 0) == PANEL_NO_ROW);
    CHECK(panel_put_row(p, 15, row, sizeof row) == PANEL_ACCEPTED);
    CHECK(panel_put_record(p, 0, record, sizeof record) == PANEL_ACCEPTED);
    CHECK(panel_put_record(p, 0, NULL, 0) == PANEL_NO_TREE);
    CHECK(wrote(panel_fetch_record(p, 15, out, 300), record, sizeof record, out, 300));
    CHECK(wrote(panel_fetch_row(p, 0, out, 300), row, sizeof row, out, 300));
    CHECK(untouched(panel_fetch_record(p, 15, out, 5), PANEL_SHORT, out, 300));
    CHECK(untouched(panel_fetch_row(p, 0, NULL, 0), PANEL_SHORT, out, 300));
    CHECK(wrote(panel_image(p, 15, out, 300), image, sizeof image, out, 300));
    CHECK(untouched(panel_image(p, 15, out, 255), PANEL_SHORT, out, 300));
    CHECK(change_sheet(p, 0, NULL, 0) == PANEL_IN_USE);
    CHECK(panel_drop(p, 15) == PANEL_ACCEPTED && panel_drop(p, 15) == PANEL_EMPTY);
    CHECK(panel_drop(p, 0) == PANEL_ACCEPTED && panel_drop(p, 255) == PANEL_PLACE);
    CHECK(untouched(panel_fetch_row(p, 0, out, 300), PANEL_EMPTY, out, 300));
}

/* A record that came with a row is held as it was sent; refused, it changes nothing. */
static void check_claims(struct panel *p, uint8_t *out) {
    const struct panel before = *p;
    CHECK(panel_put_claim(p, 16, row, sizeof row, record, sizeof record) == PANEL_PLACE);
    CHECK(panel_put_claim(p, 3, NULL, 0, NULL, 0) == PANEL_NO_ROW);
    CHECK(panel_put_claim(p, 3, row, sizeof row, NULL, 0) == PANEL_NO_TREE);
    CHECK(panel_put_claim(p, 3, row, sizeof row, torn, sizeof torn) == PANEL_OTHER_ROW);
    CHECK(panel_put_claim(p, 3, bare, sizeof bare, torn, sizeof torn) == PANEL_CONFLICT);
    CHECK(memcmp(p, &before, sizeof before) == 0);
    CHECK(panel_put_claim(p, 3, row, sizeof row, record, sizeof record) == PANEL_ACCEPTED);
    CHECK(wrote(panel_fetch_record(p, 3, out, 300), record, sizeof record, out, 300));
    CHECK(panel_put_claim(p, 3, bare, sizeof bare, repaired, sizeof repaired) == PANEL_ACCEPTED);
    CHECK(wrote(panel_fetch_record(p, 3, out, 300), repaired, sizeof repaired, out, 300));
    CHECK(wrote(panel_fetch_row(p, 3, out, 300), bare, sizeof bare, out, 300));
    CHECK(panel_drop(p, 3) == PANEL_ACCEPTED);
}

static bool gave(struct panel_value evaluated, enum panel_number number, int32_t value) {
    return evaluated.number == number && evaluated.value == value;
}

/* The row has the tree (80 00 81) 01 82, with 00 a sum and 01 at most. */
static void check_values(struct panel *p) {
    static const uint8_t meanings[] = {PANEL_SUM, PANEL_AT_MOST}, strange[] = {PANEL_SUM, PANEL_NOT};
    static const int32_t high[] = {INT32_MAX, 1, INT32_MAX}, low[] = {-7, -8, INT32_MIN};
    CHECK(gave(panel_evaluate(p, 3, meanings, 2, high, 3), PANEL_EMPTY, 0));
    CHECK(panel_put_row(p, 3, row, sizeof row) == PANEL_ACCEPTED);
    const struct panel before = *p;
    CHECK(gave(panel_evaluate(p, 3, meanings, 2, high, 3), PANEL_ACCEPTED, 1));
    CHECK(gave(panel_evaluate(p, 3, meanings, 2, low, 3), PANEL_ACCEPTED, 0));
    CHECK(gave(panel_evaluate(p, 255, meanings, 2, high, 3), PANEL_PLACE, 0));
    CHECK(gave(panel_evaluate(p, 3, meanings, 1, high, 3), PANEL_NO_MEANING, 0));
    CHECK(gave(panel_evaluate(p, 3, strange, 2, high, 0), PANEL_NO_MEANING, 0));
    CHECK(gave(panel_evaluate(p, 3, NULL, 0, NULL, 0), PANEL_NO_MEANING, 0));
    CHECK(gave(panel_evaluate(p, 3, meanings, 2, high, 2), PANEL_NO_READING, 0));
    CHECK(gave(panel_evaluate(p, 3, meanings, 2, NULL, 0), PANEL_NO_READING, 0));
    CHECK(memcmp(p, &before, sizeof before) == 0);
    CHECK(panel_put_row(p, 3, row + 1, 1) == PANEL_ACCEPTED);
    CHECK(gave(panel_evaluate(p, 3, NULL, 0, low, 1), PANEL_ACCEPTED, -7));
    CHECK(panel_drop(p, 3) == PANEL_ACCEPTED);
}

static bool powered(struct panel_powers powers, enum panel_number number, uint8_t left, uint8_t right) {
    return powers.number == number && powers.left == left && powers.right == right;
}

/* Two infix operators and 02, which is prefix and binds between them: 01 over 02 over 00. */
static void check_prefix(struct panel *p, uint8_t *out) {
    static const uint8_t sheet[] = {PANEL_INFIX, PANEL_INFIX, PANEL_PREFIX, PANEL_PRIORITY, 1, 2, PANEL_PRIORITY, 2, 0,
                                    PANEL_LEFT, 0, 0, PANEL_LEFT, 1, 1};
    static const uint8_t changed[] = {PANEL_INFIX, PANEL_INFIX, PANEL_INFIX, PANEL_PRIORITY, 1, 2, PANEL_PRIORITY, 2, 0,
                                      PANEL_LEFT, 0, 0, PANEL_LEFT, 1, 1, PANEL_LEFT, 2, 2};
    static const uint8_t tokens[] = {0x02, 0x80, 0x01, 0x81, 0x00, 0x82}, made[] = {0x00, 0x02, 0x01, 0x80, 0x81, 0x82};
    /* Three conflicts: 00 on top and 02 on the right edge of the left operand of 01, and 00 below 02. */
    static const uint8_t wrong[] = {0x01, 0x00, 0x80, 0x02, 0x00, 0x81, 0x82, 0x83};
    static const uint8_t meanings[] = {PANEL_SUM, PANEL_DIFFERENCE, PANEL_MINUS}, no_minus[] = {6, 7, PANEL_LARGER};
    static const int32_t readings[] = {INT32_MAX, -1, 1};
    struct panel_part operand;
    CHECK(panel_stage(p, 3, sheet, 2) == PANEL_TORN);
    CHECK(change_sheet(p, 3, sheet, sizeof sheet) == PANEL_ACCEPTED);
    CHECK(wrote(panel_build(p, tokens, sizeof tokens, out, 300), made, sizeof made, out, 300));
    CHECK(panel_judge(p, made, sizeof made).count == 0 && panel_judge(p, wrong, sizeof wrong).count == 3);
    CHECK(wrote(panel_shortest_row(p, made, sizeof made, out, 300), tokens, sizeof tokens, out, 300));
    operand = panel_operand(p, made + 1, 4, PANEL_LEFT_SIDE);
    CHECK(operand.number == PANEL_ACCEPTED && operand.offset == 1 && operand.length == 3);
    CHECK(panel_operand(p, made + 1, 4, PANEL_RIGHT_SIDE).length == 0);
    CHECK(panel_put_row(p, 3, tokens, sizeof tokens) == PANEL_ACCEPTED);
    CHECK(gave(panel_evaluate(p, 3, meanings, 3, readings, 3), PANEL_ACCEPTED, -INT32_MAX + 1));
    CHECK(gave(panel_evaluate(p, 3, no_minus, 3, readings, 3), PANEL_NO_MEANING, 0));
    CHECK(change_sheet(p, 3, changed, sizeof changed) == PANEL_IN_USE);
    CHECK(powered(panel_powers(p, 1), PANEL_ACCEPTED, 4, 4) && powered(panel_powers(p, 2), PANEL_STRANGER, 0, 0));
    CHECK(panel_drop(p, 3) == PANEL_ACCEPTED);
    CHECK(panel_switch(p) == PANEL_ACCEPTED);
    CHECK(powered(panel_powers(p, 1), PANEL_ACCEPTED, 6, 6) && powered(panel_powers(p, 2), PANEL_ACCEPTED, 4, 4));
}

int main(void) {
    struct panel p;
    uint8_t out[300];
    memset(out, 0xEE, sizeof out);
    panel_fresh(&p);
    CHECK(panel_stage(&p, 33, NULL, 0) == PANEL_OVERSIZE && panel_stage(&p, 1, NULL, 0) == PANEL_TORN);
    CHECK(panel_stage(&p, 2, sheet_a, 10) == PANEL_TORN && panel_stage(&p, 1, sheet_a, sizeof sheet_a) == PANEL_TORN);
    CHECK(panel_stage(&p, 1, sheet_a + 1, sizeof sheet_a - 1) == PANEL_STRANGER);
    CHECK(panel_switch(&p) == PANEL_NOTHING_STAGED);
    check_rules(&p);
    check_stage(&p, out);
    check_explanations(out);
    check_lines();
    check_trees(&p, out);
    check_operands(&p);
    check_places(&p, out);
    check_claims(&p, out);
    check_values(&p);
    check_prefix(&p, out);
    CHECK(change_sheet(&p, 0, NULL, 0) == PANEL_ACCEPTED);
    for (int number = PANEL_ACCEPTED; number <= PANEL_CONFLICT; number++)
        CHECK(strncmp(panel_word((enum panel_number)number), "unknown", 7) != 0);
    return failures != 0;
}
