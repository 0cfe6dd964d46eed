/*
 * The stack that each call takes at most, in bytes. It is that of the call and of all below it, memcpy and memset of the
 * GNU C library included, on the target that panel.h names. The bytes were measured, on the deepest lists, on lists that
 * are too long and on panels that no run of calls makes, and rounded up; they are not proved. tests/stack.c measures them
 * anew. Add your own frames and what interrupts need.
 */
#ifndef TIHVOMEN_PANEL_STACK_H
#define TIHVOMEN_PANEL_STACK_H

enum {
    PANEL_STACK_FRESH = 128,
    PANEL_STACK_OPERATORS = 128,
    PANEL_STACK_STAGE = 2432,
    PANEL_STACK_STAGE_RULES = 8064,
    PANEL_STACK_EXPLAIN = 2688,
    PANEL_STACK_EXPLAIN_RULES = 9088,
    PANEL_STACK_SWITCH = 9472,
    PANEL_STACK_PUT_ROW = 12800,
    PANEL_STACK_PUT_RECORD = 9344,
    PANEL_STACK_PUT_CLAIM = 12928,
    PANEL_STACK_DROP = 128,
    PANEL_STACK_FETCH_RECORD = 256,
    PANEL_STACK_FETCH_ROW = 8832,
    PANEL_STACK_IMAGE = 256,
    PANEL_STACK_BUILD = 12544,
    PANEL_STACK_REPAIR = 9088,
    PANEL_STACK_YIELD = 8832,
    PANEL_STACK_SHORTEST_ROW = 9856,
    PANEL_STACK_JUDGE = 10496,
    PANEL_STACK_OPERAND = 6656,
    PANEL_STACK_POWERS = 128,
    PANEL_STACK_REPLY = 19968,
    PANEL_STACK_EVALUATE = 20608
};

#endif
