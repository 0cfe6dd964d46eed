/* The calls of panel_explain.h, against the cases of docs/REFERENCE.md, section 13; lengths of 0 with NULL. */
#ifndef TIHVOMEN_EXPLANATIONS_H
#define TIHVOMEN_EXPLANATIONS_H

#include "check.h"
#include "lent_output.h"
#include "panel_explain.h"

/* Kinds and rules of three operators that bind in a circle, and the answer: two trees of 80 00 81 01 82 02 83. */
static const uint8_t circle[] = {PANEL_INFIX, PANEL_INFIX, PANEL_INFIX, PANEL_LEFT, 0, 0, PANEL_LEFT, 1, 1, PANEL_LEFT, 2, 2,
                                 PANEL_LEFT, 0, 1, PANEL_RIGHT, 0, 1, PANEL_LEFT, 1, 2, PANEL_RIGHT, 1, 2,
                                 PANEL_LEFT, 2, 0, PANEL_RIGHT, 2, 0};
static const uint8_t of_circle[] = {PANEL_DOUBLE, 0x80, 0, 0x81, 1, 0x82, 2, 0x83,
                                    0, 0x80, 2, 1, 0x81, 0x82, 0x83, 2, 1, 0, 0x80, 0x81, 0x82, 0x83};

static void check_explained_bytes(uint8_t *out) {
    static const uint8_t good[] = {PANEL_ACCEPTED}, stuck[] = {PANEL_INFIX, PANEL_LEFT, 0, 0, PANEL_RIGHT, 0, 0};
    static const uint8_t of_stuck[] = {PANEL_DEAD, 0x80, 0, 0x81, 0, 0x82};
    static const uint8_t of_none[] = {PANEL_DOUBLE, 0x80, 0, 0x81, 0, 0x82, 0, 0x80, 0, 0x81, 0x82, 0, 0, 0x80, 0x81, 0x82};
    static const uint8_t loose[] = {PANEL_INFIX, PANEL_PREFIX, PANEL_LEFT, 0, 0};
    static const uint8_t of_loose[] = {PANEL_DOUBLE, 1, 0x80, 0, 0x81, 1, 0, 0x80, 0x81, 0, 1, 0x80, 0x81};
    CHECK(wrote(panel_explain(0, NULL, 0, out, 300), good, sizeof good, out, 300));
    CHECK(wrote(panel_explain(1, stuck, 4, out, sizeof good), good, sizeof good, out, 300));
    CHECK(wrote(panel_explain(1, stuck, sizeof stuck, out, 300), of_stuck, sizeof of_stuck, out, 300));
    CHECK(wrote(panel_explain(1, stuck, 1, out, 300), of_none, sizeof of_none, out, 300));
    CHECK(wrote(panel_explain(2, loose, sizeof loose, out, 300), of_loose, sizeof of_loose, out, 300));
    CHECK(sizeof of_circle == PANEL_MOST_EXPLAINED);
    CHECK(wrote(panel_explain(3, circle, sizeof circle, out, PANEL_MOST_EXPLAINED), of_circle, sizeof of_circle, out, 300));
    CHECK(untouched(panel_explain(3, circle, sizeof circle, out, PANEL_MOST_EXPLAINED - 1), PANEL_SHORT, out, 300));
    CHECK(untouched(panel_explain(0, NULL, 0, NULL, 0), PANEL_SHORT, out, 300));
    CHECK(untouched(panel_explain(33, NULL, 0, out, 300), PANEL_OVERSIZE, out, 300));
    CHECK(untouched(panel_explain(1, NULL, 0, NULL, 0), PANEL_TORN, out, 300));
    CHECK(untouched(panel_explain(3, circle, sizeof circle - 1, out, 300), PANEL_TORN, out, 300));
    CHECK(untouched(panel_explain(2, circle, sizeof circle - 1, out, 0), PANEL_STRANGER, out, 300));
}

static void check_explained_lists(uint8_t *out) {
    static const uint8_t dead[] = {PANEL_DEAD, 0x80, 0, 0x81, 0, 0x82}, good[] = {PANEL_ACCEPTED};
    struct panel_rule rules[(sizeof circle - 3) / 3], priority = {PANEL_PRIORITY, 0, 0};
    enum { RULES = sizeof rules / sizeof rules[0] };
    for (size_t i = 0; i < RULES; i++) {
        rules[i].kind = circle[3 + 3 * i];
        rules[i].first = circle[4 + 3 * i];
        rules[i].second = circle[5 + 3 * i];
    }
    CHECK(wrote(panel_explain_rules(3, circle, 3, rules, RULES, out, 300), of_circle, sizeof of_circle, out, 300));
    CHECK(untouched(panel_explain_rules(3, circle, 3, rules, RULES, out, 21), PANEL_SHORT, out, 300));
    CHECK(wrote(panel_explain_rules(1, circle, 1, &priority, 1, out, 300), dead, sizeof dead, out, 300));
    CHECK(wrote(panel_explain_rules(0, NULL, 0, NULL, 0, out, 300), good, sizeof good, out, 300));
    CHECK(untouched(panel_explain_rules(0, NULL, 0, NULL, 0, NULL, 0), PANEL_SHORT, out, 300));
    CHECK(untouched(panel_explain_rules(33, NULL, 0, rules, RULES, out, 300), PANEL_OVERSIZE, out, 300));
    CHECK(untouched(panel_explain_rules(3, circle, 2, rules, RULES, out, 300), PANEL_TORN, out, 300));
    CHECK(untouched(panel_explain_rules(2, circle, 2, rules, RULES, out, 0), PANEL_STRANGER, out, 300));
}

static void check_explanations(uint8_t *out) {
    check_explained_bytes(out);
    check_explained_lists(out);
}

#endif
