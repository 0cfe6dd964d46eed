/* One condition under two sheets: stage, switch, put, fetch, and print the tree. Made and run by bin/test-bindings. */
#include "panel.h"

#include <stdio.h>

enum { OR = 0x00, AND = 0x01, NOT = 0x02, OPERATORS = 3, HOLDOVER = 0x80, ANTENNA = 0x81, PEERS = 0x82 };

/* What each byte of a record means at this site. */
static const char *name(uint8_t byte) {
    switch (byte) {
    case OR: return "or";
    case AND: return "and";
    case NOT: return "not";
    case HOLDOVER: return "holdover over four hours";
    case ANTENNA: return "antenna there";
    case PEERS: return "no peers";
    default: return "brackets";
    }
}

/* Prints the tree of a record, each operand two columns further in than its operator. */
static void print_tree(const struct panel *p, const uint8_t *record, size_t length, int column) {
    printf("%*s%s\n", column, "", name(record[0]));
    for (int side = PANEL_LEFT_SIDE; side <= PANEL_RIGHT_SIDE; side++) {
        struct panel_part operand = panel_operand(p, record, length, (enum panel_side)side);
        if (operand.length != 0)
            print_tree(p, record + operand.offset, operand.length, column + 2);
    }
}

/* Prints the tree that place 3 holds. */
static int print_place(const struct panel *p) {
    uint8_t record[PANEL_MOST_TOKENS];
    struct panel_answer answer = panel_fetch_record(p, 3, record, sizeof record);
    if (answer.number != PANEL_ACCEPTED) {
        printf("fetch refused, %s\n", panel_word(answer.number));
        return 1;
    }
    print_tree(p, record, answer.length, 2);
    return 0;
}

/* Stages a sheet of "or", "and" and "not" with these rules and those by which "or" and "and" group to the left. */
static enum panel_number stage(struct panel *p, const struct panel_rule *first, const struct panel_rule *second) {
    static const uint8_t kinds[] = {PANEL_INFIX, PANEL_INFIX, PANEL_PREFIX};
    const struct panel_rule rules[] = {*first, *second, {PANEL_LEFT, OR, OR}, {PANEL_LEFT, AND, AND}};
    return panel_stage_rules(p, OPERATORS, kinds, sizeof kinds, rules, 4);
}

int main(void) {
    static const struct panel_rule not_over_and = {PANEL_PRIORITY, NOT, AND}, and_over_or = {PANEL_PRIORITY, AND, OR};
    static const struct panel_rule and_over_not = {PANEL_PRIORITY, AND, NOT}, not_over_or = {PANEL_PRIORITY, NOT, OR};
    /* As bytes: the kinds, then no rules, or "or" left and right of itself. */
    static const uint8_t no_rules[] = {PANEL_INFIX, PANEL_INFIX, PANEL_PREFIX};
    static const uint8_t both_ways[] = {PANEL_INFIX, PANEL_INFIX, PANEL_PREFIX, PANEL_LEFT, OR, OR, PANEL_RIGHT, OR, OR};
    static const uint8_t row[] = {HOLDOVER, OR, NOT, ANTENNA, AND, PEERS};
    struct panel p = PANEL_FRESH;

    printf("before any sheet: %s\n", panel_word(panel_put_row(&p, 3, row, sizeof row)));
    printf("\"not\", \"and\", \"or\" staged: %s\n", panel_word(stage(&p, &not_over_and, &and_over_or)));
    printf("switch: %s\n", panel_word(panel_switch(&p)));
    printf("the row: %s\n", panel_word(panel_put_row(&p, 3, row, sizeof row)));
    if (print_place(&p) != 0)
        return 1;

    printf("\"and\", \"not\", \"or\" staged: %s\n", panel_word(stage(&p, &and_over_not, &not_over_or)));
    if (print_place(&p) != 0)
        return 1;

    /* A sheet that is refused leaves the staged one. */
    printf("no rules staged: %s\n", panel_word(panel_stage(&p, OPERATORS, no_rules, sizeof no_rules)));
    printf("both ways staged: %s\n", panel_word(panel_stage(&p, OPERATORS, both_ways, sizeof both_ways)));
    printf("switch: %s\n", panel_word(panel_switch(&p)));
    if (print_place(&p) != 0)
        return 1;

    printf("switch: %s\n", panel_word(panel_switch(&p)));
    printf("fewer operators staged: %s\n", panel_word(panel_stage(&p, 0, NULL, 0)));
    printf("switch: %s\n", panel_word(panel_switch(&p)));
    return print_place(&p);
}
