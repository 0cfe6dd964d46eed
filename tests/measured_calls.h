/* The calls whose stack is measured: each on what it is lent, and with the stack that panel_stack.h states. */
#ifndef TIHVOMEN_MEASURED_CALLS_H
#define TIHVOMEN_MEASURED_CALLS_H

#include "deep_lists.h"
#include "panel_evaluate.h"
#include "panel_explain.h"
#include "panel_stack.h"

/* What the calls are lent. */
static struct panel p;
static struct list lent, staged, claimed_row, claimed;
static struct panel_rule rule_list[PANEL_MOST_RULES + 1];
static char line[PANEL_MOST_LINE + 3];
static size_t line_length;
static uint8_t out[PANEL_MOST_REPLY];
static unsigned place;
static enum panel_side side;
static volatile size_t answer;

static void do_nothing(void) { answer = 0; }
static void do_fresh(void) { panel_fresh(&p); }
static void do_operators(void) { answer = panel_operators(&p); }
static void do_stage(void) { answer = panel_stage(&p, PANEL_MOST_OPERATORS, staged.bytes, staged.length); }
static void do_switch(void) { answer = panel_switch(&p); }
static void do_put_row(void) { answer = panel_put_row(&p, place, lent.bytes, lent.length); }
static void do_put_record(void) { answer = panel_put_record(&p, place, lent.bytes, lent.length); }
static void do_drop(void) { answer = panel_drop(&p, place); }
static void do_fetch_record(void) { answer = panel_fetch_record(&p, place, out, sizeof out).length; }
static void do_fetch_row(void) { answer = panel_fetch_row(&p, place, out, sizeof out).length; }
static void do_image(void) { answer = panel_image(&p, place, out, sizeof out).length; }
static void do_build(void) { answer = panel_build(&p, lent.bytes, lent.length, out, sizeof out).length; }
static void do_repair(void) { answer = panel_repair(&p, lent.bytes, lent.length, out, sizeof out).length; }
static void do_yield(void) { answer = panel_yield(&p, lent.bytes, lent.length, out, sizeof out).length; }
static void do_shortest_row(void) { answer = panel_shortest_row(&p, lent.bytes, lent.length, out, sizeof out).length; }
static void do_judge(void) { answer = panel_judge(&p, lent.bytes, lent.length).count; }
static void do_operand(void) { answer = panel_operand(&p, lent.bytes, lent.length, side).length; }
static void do_powers(void) { answer = panel_powers(&p, place).left; }
static void do_reply(void) { answer = panel_reply(&p, line, line_length, (char *)out); }

static void do_stage_rules(void) {
    size_t count = (staged.length - PANEL_MOST_OPERATORS) / 3;
    answer = panel_stage_rules(&p, PANEL_MOST_OPERATORS, staged.bytes, PANEL_MOST_OPERATORS, rule_list, count);
}

static void do_explain(void) {
    answer = panel_explain(PANEL_MOST_OPERATORS, staged.bytes, staged.length, out, sizeof out).length;
}

static void do_explain_rules(void) {
    size_t count = (staged.length - PANEL_MOST_OPERATORS) / 3;
    answer = panel_explain_rules(
        PANEL_MOST_OPERATORS, staged.bytes, PANEL_MOST_OPERATORS, rule_list, count, out, sizeof out).length;
}

static void do_put_claim(void) {
    answer = panel_put_claim(&p, place, claimed_row.bytes, claimed_row.length, claimed.bytes, claimed.length);
}

static void do_evaluate(void) {
    static const uint8_t meanings[] = {1, 2, 3, 4, 5, 6, 7, 8, 9, 1, 2, 3, 4, 5, 6, 7,
                                       8, 9, 1, 2, 3, 4, 5, 6, 10, 11, 10, 11, 10, 11, 10, 11};
    static const int32_t readings[128] = {INT32_MIN, INT32_MAX, -1, 0, 1};
    answer = (size_t)panel_evaluate(&p, place, meanings, sizeof meanings, readings, 128).number;
}

/* What a call looks at beside the sheet in force and the places. */
enum lends { NOTHING, STAGE, RULES, LIST, CLAIM, LINE };

static struct call {
    const char *name;
    void (*run)(void);
    enum lends lends;
    size_t stated, most;
} calls[] = {
    {"fresh", do_fresh, NOTHING, PANEL_STACK_FRESH, 0},
    {"operators", do_operators, NOTHING, PANEL_STACK_OPERATORS, 0},
    {"stage", do_stage, RULES, PANEL_STACK_STAGE, 0},
    {"stage_rules", do_stage_rules, RULES, PANEL_STACK_STAGE_RULES, 0},
    {"explain", do_explain, RULES, PANEL_STACK_EXPLAIN, 0},
    {"explain_rules", do_explain_rules, RULES, PANEL_STACK_EXPLAIN_RULES, 0},
    {"switch", do_switch, STAGE, PANEL_STACK_SWITCH, 0},
    {"put_row", do_put_row, LIST, PANEL_STACK_PUT_ROW, 0},
    {"put_record", do_put_record, LIST, PANEL_STACK_PUT_RECORD, 0},
    {"put_claim", do_put_claim, CLAIM, PANEL_STACK_PUT_CLAIM, 0},
    {"drop", do_drop, NOTHING, PANEL_STACK_DROP, 0},
    {"fetch_record", do_fetch_record, NOTHING, PANEL_STACK_FETCH_RECORD, 0},
    {"fetch_row", do_fetch_row, NOTHING, PANEL_STACK_FETCH_ROW, 0},
    {"image", do_image, NOTHING, PANEL_STACK_IMAGE, 0},
    {"build", do_build, LIST, PANEL_STACK_BUILD, 0},
    {"repair", do_repair, LIST, PANEL_STACK_REPAIR, 0},
    {"yield", do_yield, LIST, PANEL_STACK_YIELD, 0},
    {"shortest_row", do_shortest_row, LIST, PANEL_STACK_SHORTEST_ROW, 0},
    {"judge", do_judge, LIST, PANEL_STACK_JUDGE, 0},
    {"operand", do_operand, LIST, PANEL_STACK_OPERAND, 0},
    {"powers", do_powers, NOTHING, PANEL_STACK_POWERS, 0},
    {"reply", do_reply, LINE, PANEL_STACK_REPLY, 0},
    {"evaluate", do_evaluate, NOTHING, PANEL_STACK_EVALUATE, 0},
};
enum { CALLS = sizeof calls / sizeof calls[0] };

#endif
