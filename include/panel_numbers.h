/* The numbers that the panel's calls give, and a sentence for each. */
#ifndef TIHVOMEN_PANEL_NUMBERS_H
#define TIHVOMEN_PANEL_NUMBERS_H

/* Stands before a call whose answer is to be looked at: a compiler that can warns where it is not. */
#if (defined(__cplusplus) && __cplusplus >= 201703L) || (defined(__STDC_VERSION__) && __STDC_VERSION__ >= 202311L)
#define PANEL_NODISCARD [[nodiscard]]
#elif defined(__GNUC__)
#define PANEL_NODISCARD __attribute__((warn_unused_result))
#else
#define PANEL_NODISCARD
#endif

/* No number is given where its condition does not hold. */
enum panel_number {
    PANEL_ACCEPTED = 0,
    /* more than 32 operators, 2,048 rules, 255 tokens in a row, 255 bytes in a record or 12,356 characters in a line */
    PANEL_OVERSIZE = 1,
    /* fewer kinds than operators, or rule bytes not in threes; beside a list of rules, any number of kinds but that of operators */
    PANEL_TORN = 2,
    /*
     * a byte that means nothing here: a kind that does not exist, an operator that the sheet lacks, 21 inside a record; and a
     * prefix operator whose powers are asked for
     */
    PANEL_STRANGER = 3,
    /* under the rules at least one row, however long, has no conflict-free tree */
    PANEL_DEAD = 4,
    /* each row has a conflict-free tree, but at least one has several */
    PANEL_DOUBLE = 5,
    /* the tokens do not make up one expression */
    PANEL_NO_ROW = 6,
    /* the bytes do not make up exactly one tree */
    PANEL_NO_TREE = 7,
    /* places go from 0 to 15 */
    PANEL_PLACE = 8,
    /* nothing is held at the place that is to be dropped, fetched or evaluated */
    PANEL_EMPTY = 9,
    /* the answer does not fit into the lent output */
    PANEL_SHORT = 10,
    /* a tree that is held uses an operator which the staged sheet lacks or has with another kind */
    PANEL_IN_USE = 11,
    /* the line is no frame: no digit pairs, a kind that does not exist, or a length that its kind does not have */
    PANEL_FRAME = 12,
    /* an operator of the tree that is to be evaluated has no meaning of its kind: 1 to 9 infix, 10 and 11 prefix */
    PANEL_NO_MEANING = 13,
    /* a reading of the tree that is to be evaluated lies beyond the lent list */
    PANEL_NO_READING = 14,
    /* a switch where no sheet is staged */
    PANEL_NOTHING_STAGED = 15,
    /* the record that came with a row has another row */
    PANEL_OTHER_ROW = 16,
    /* the record that came with a row has that row, but its tree is not the conflict-free one */
    PANEL_CONFLICT = 17
};

/* What a number says: its word, then a sentence without a full stop. */
static inline const char *panel_word(enum panel_number number) {
    switch (number) {
    case PANEL_ACCEPTED: return "accepted";
    case PANEL_OVERSIZE: return "oversize: more operators, rules, tokens or bytes than the panel takes";
    case PANEL_TORN:
        return "torn: the kind bytes are not as many as the operators, or the rule bytes not a multiple of three";
    case PANEL_STRANGER: return "stranger: a byte, an operator or a kind that has no meaning here";
    case PANEL_DEAD: return "dead: under these rules some row has no conflict-free tree";
    case PANEL_DOUBLE: return "double: under these rules some row has two or more conflict-free trees";
    case PANEL_NO_ROW: return "no row: the tokens are not one expression";
    case PANEL_NO_TREE: return "no tree: the record is not exactly one tree";
    case PANEL_PLACE: return "place: there are places 0 to 15 only";
    case PANEL_EMPTY: return "empty: the place holds nothing";
    case PANEL_SHORT: return "short: the lent output is shorter than the answer";
    case PANEL_IN_USE:
        return "in use: a held tree uses an operator that the staged sheet does not have, or has with another kind";
    case PANEL_FRAME: return "frame: the line is not digit pairs, or not of a known kind and its length";
    case PANEL_NO_MEANING: return "no meaning: an operator of the tree has no meaning of its kind";
    case PANEL_NO_READING: return "no reading: a reading of the tree lies beyond the lent list";
    case PANEL_NOTHING_STAGED: return "nothing staged: no sheet waits for a switch";
    case PANEL_OTHER_ROW: return "other row: the row of the record is not the row that came with it";
    case PANEL_CONFLICT: return "conflict: the record's tree has an operator where a rule excludes it";
    }
    return "unknown: the panel gives no such number";
}

#endif
