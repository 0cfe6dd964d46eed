/*
 * A parser of another product that asks the panel for binding powers and knows nothing else of the sheet. Prints the powers,
 * then rows, each as this parser and as the panel groups it. Made and run by bin/test-bindings.
 */
#include "panel.h"

#include <stdio.h>
#include <string.h>

enum { OR = 0x00, AND = 0x01, NOT = 0x02, ELSE = 0x03, OPERATORS = 4 };

static const char *const names[OPERATORS] = {"or", "and", "not", "else"};

/* The tokens that are left of a row, and the record that is made. */
struct parser {
    const struct panel *p;
    const uint8_t *next, *end;
    uint8_t record[PANEL_MOST_TOKENS];
    size_t length;
};

/*
 * Reads an expression, up to the first operator whose left power is not over the floor. The tokens are those of a row
 * without prefix operators.
 */
static void read_expression(struct parser *parser, uint8_t floor) {
    const size_t start = parser->length;
    const uint8_t first = *parser->next++;
    parser->record[parser->length++] = first;
    if (first == PANEL_OPENING) {
        read_expression(parser, 0);
        parser->next++; /* the closing bracket */
    }
    while (parser->next < parser->end) {
        const struct panel_powers powers = panel_powers(parser->p, *parser->next);
        if (powers.number != PANEL_ACCEPTED || powers.left <= floor)
            return;
        /* What has been read is its left operand: in a record the operator comes before it. */
        memmove(parser->record + start + 1, parser->record + start, parser->length - start);
        parser->record[start] = *parser->next++;
        parser->length++;
        read_expression(parser, powers.right);
    }
}

static void print_bytes(const char *what, const uint8_t *bytes, size_t length) {
    printf("%s", what);
    for (size_t i = 0; i < length; i++)
        printf(" %02x", (unsigned)bytes[i]);
    printf("\n");
}

/* Prints a row and its record, as it is read here and as the panel builds it. */
static int print_row(const struct panel *p, const uint8_t *row, size_t length) {
    struct parser parser = {p, row, row + length, {0}, 0};
    uint8_t record[PANEL_MOST_TOKENS];
    const struct panel_answer built = panel_build(p, row, length, record, sizeof record);
    read_expression(&parser, 0);
    print_bytes("row      ", row, length);
    print_bytes("by powers", parser.record, parser.length);
    print_bytes("built    ", record, built.length);
    return built.length != parser.length || memcmp(record, parser.record, built.length) != 0;
}

int main(void) {
    /* "else" binds tightest and groups to the right, then "not", which is prefix, then "and", then "or". */
    static const uint8_t kinds[OPERATORS] = {PANEL_INFIX, PANEL_INFIX, PANEL_PREFIX, PANEL_INFIX};
    static const struct panel_rule rules[] = {{PANEL_PRIORITY, ELSE, NOT}, {PANEL_PRIORITY, NOT, AND}, {PANEL_PRIORITY, AND, OR},
                                              {PANEL_LEFT, OR, OR}, {PANEL_LEFT, AND, AND}, {PANEL_RIGHT, ELSE, ELSE}};
    static const uint8_t mixed[] = {0x80, AND, 0x81, OR, 0x82, AND, 0x83, ELSE, 0x84};
    static const uint8_t chain[] = {0x80, ELSE, 0x81, ELSE, 0x82, OR, 0x83, OR, 0x84};
    static const uint8_t bracketed[] = {0x80, AND, PANEL_OPENING, 0x81, OR, 0x82, PANEL_CLOSING, ELSE, 0x83};
    struct panel p = PANEL_FRESH;
    if (panel_stage_rules(&p, OPERATORS, kinds, sizeof kinds, rules, sizeof rules / sizeof rules[0]) != PANEL_ACCEPTED ||
        panel_switch(&p) != PANEL_ACCEPTED)
        return 1;
    for (unsigned op = 0; op < OPERATORS; op++) {
        struct panel_powers powers = panel_powers(&p, op);
        if (powers.number == PANEL_ACCEPTED)
            printf("\"%s\": left %u, right %u\n", names[op], (unsigned)powers.left, (unsigned)powers.right);
        else
            printf("\"%s\": %s\n", names[op], panel_word(powers.number));
    }
    return print_row(&p, mixed, sizeof mixed) + print_row(&p, chain, sizeof chain) + print_row(&p, bracketed, sizeof bracketed);
}
