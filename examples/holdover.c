/* One condition at two sites, then under another sheet. The holdover limit is a reading. Run by bin/test-bindings. */
#include "panel_evaluate.h"

#include <stdio.h>

enum { LESS = 0x00, OR = 0x01, AND = 0x02, NOT = 0x03, OPERATORS = 4 };
enum { LIMIT = 0x80, HOLDOVER = 0x81, ANTENNA_LOST = 0x82, PEERS = 0x83, READINGS = 4 };

/* What the operators mean here, 00 first. */
static const uint8_t meanings[] = {PANEL_LESS, PANEL_OR, PANEL_AND, PANEL_NOT};

/*
 * Stages a sheet and switches it in: "less" binds tightest, then "not", then `tighter`, then `looser`; "not" is prefix, and
 * the others group to the left. Priority leads on: "less" is over `tighter` too.
 */
static enum panel_number change_sheet(struct panel *p, uint8_t tighter, uint8_t looser) {
    const uint8_t sheet[] = {
        PANEL_INFIX, PANEL_INFIX, PANEL_INFIX, PANEL_PREFIX,
        PANEL_PRIORITY, LESS, NOT, PANEL_PRIORITY, NOT, tighter, PANEL_PRIORITY, tighter, looser,
        PANEL_LEFT, LESS, LESS, PANEL_LEFT, OR, OR, PANEL_LEFT, AND, AND};
    enum panel_number number = panel_stage(p, OPERATORS, sheet, sizeof sheet);
    return number == PANEL_ACCEPTED ? panel_switch(p) : number;
}

/* Runs the condition at a site with this limit. All else is the same at every site; the readings are lent 80 first. */
static void print_site(const struct panel *p, int32_t limit) {
    const int32_t readings[READINGS] = {limit, 3000, 1, 5};
    struct panel_value alarm = panel_evaluate(p, 3, meanings, sizeof meanings, readings, READINGS);
    printf("  with a limit of %d seconds: ", (int)limit);
    if (alarm.number != PANEL_ACCEPTED)
        printf("refused, %s\n", panel_word(alarm.number));
    else
        printf("%s\n", alarm.value != 0 ? "alarm" : "no alarm");
}

static void print_sites(const struct panel *p) {
    print_site(p, 14400);
    print_site(p, 1200);
}

int main(void) {
    static const uint8_t row[] = {LIMIT, LESS, HOLDOVER, OR, ANTENNA_LOST, AND, NOT, PEERS};
    static const int32_t no_values[READINGS] = {0};
    struct panel p = PANEL_FRESH;

    printf("3000 seconds in holdover, the antenna lost, five peers in reach\n");
    printf("\"and\" first: %s\n", panel_word(change_sheet(&p, AND, OR)));
    printf("the row: %s\n", panel_word(panel_put_row(&p, 3, row, sizeof row)));
    print_sites(&p);

    printf("\"or\" first: %s\n", panel_word(change_sheet(&p, OR, AND)));
    print_sites(&p);

    printf("meanings for three operators: %s\n", panel_word(panel_evaluate(&p, 3, meanings, 3, no_values, 4).number));
    printf("values for three readings: %s\n", panel_word(panel_evaluate(&p, 3, meanings, 4, no_values, 3).number));
    printf("another place: %s\n", panel_word(panel_evaluate(&p, 4, meanings, 4, no_values, 4).number));
    return 0;
}
