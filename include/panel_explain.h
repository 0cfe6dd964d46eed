/*
 * Why a sheet is refused, for C99 and C++: a row that shows it, and the trees that the row has. What panel.h says of every
 * call, and of the archive, holds of these; they are lent no panel.
 */
#ifndef TIHVOMEN_PANEL_EXPLAIN_H
#define TIHVOMEN_PANEL_EXPLAIN_H

#include "panel.h"

/*
 * Writes why the sheet is refused; it is given as to panel_stage, and is neither staged nor kept. The first byte is what a
 * staging of it answers. After PANEL_ACCEPTED nothing follows. After PANEL_DEAD follows a row over the sheet's operators
 * that has no conflict-free tree. After PANEL_DOUBLE follow a row that has two and then the records of both, each as long
 * as the row; in the first the row's first operator is on top, in the second its last one.
 *
 * The row has two operators if one of two shows it, else three. Only the first of them may be prefix. Of rows with as many
 * operators it is the one with the smallest first operator, then the smallest second, then the smallest third. Its
 * readings are 80, 81, .. from the left. PANEL_MOST_EXPLAINED bytes are room for every answer. Numbers: 1, 2, 3, 10.
 */
PANEL_NODISCARD static inline struct panel_answer panel_explain(
    unsigned n, const uint8_t *kinds_and_rules, size_t length, uint8_t *out, size_t room) {
    uint8_t spare = 0;
    const uint8_t *from = panel_from(kinds_and_rules, length);
    return panel_answered(tihvomen_explain(n, from, length, panel_into(out, room, &spare), room));
}

/*
 * The same with the rules as a list of records and the kinds as a list beside it, as to panel_stage_rules; any number of
 * kinds but n is 2. Numbers: 1, 2, 3, 10.
 */
PANEL_NODISCARD static inline struct panel_answer panel_explain_rules(
    unsigned n, const uint8_t *kinds, size_t kind_count, const struct panel_rule *rules, size_t rule_count, uint8_t *out,
    size_t room) {
    uint8_t spare = 0;
    /* Too many rules are refused before any is read, whatever their number. */
    size_t rule_bytes = (rule_count > PANEL_MOST_RULES ? PANEL_MOST_RULES + 1 : rule_count) * sizeof *rules;
    const uint8_t *from = panel_from((const uint8_t *)rules, rule_bytes);
    return panel_answered(tihvomen_explain_rules(
        n, panel_from(kinds, kind_count), kind_count, from, rule_bytes, panel_into(out, room, &spare), room));
}

#endif
