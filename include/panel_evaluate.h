/*
 * Running a condition, for C99 and C++: the value of the tree that a place holds. What panel.h says of every call, and
 * of the archive, holds of this one.
 */
#ifndef TIHVOMEN_PANEL_EVALUATE_H
#define TIHVOMEN_PANEL_EVALUATE_H

#include "panel.h"

/*
 * What an operator makes of the values a and b of its left and its right operand; a prefix one has the value a alone. 0 is
 * false, all else is true. A meaning suits operators of its own kind only.
 */
enum panel_meaning {
    /* of an infix operator */
    PANEL_OR = 1,         /* 1 if a or b is true, else 0 */
    PANEL_AND = 2,        /* 1 if a and b are true, else 0 */
    PANEL_LESS = 3,       /* 1 if a is less than b, else 0 */
    PANEL_AT_MOST = 4,    /* 1 if a is at most b, else 0 */
    PANEL_EQUAL = 5,      /* 1 if a is b, else 0 */
    PANEL_SUM = 6,        /* a + b; past an end of the 32-bit range, that end */
    PANEL_DIFFERENCE = 7, /* a - b; past an end of the 32-bit range, that end */
    PANEL_SMALLER = 8,    /* the smaller of a and b */
    PANEL_LARGER = 9,     /* the larger of a and b */
    /* of a prefix operator */
    PANEL_NOT = 10,       /* 1 if a is 0, else 0 */
    PANEL_MINUS = 11      /* -a; past the end of the 32-bit range, that end */
};

/* The number of an evaluation, and the value of the tree; 0 after a refusal. */
struct panel_value {
    enum panel_number number;
    int32_t value;
};

#ifdef __cplusplus
extern "C" {
#endif

/* The archive's function, in the manner of panel_exports.h. */
struct panel_raw_value {
    uint8_t number;
    int32_t value;
};

struct panel_raw_value tihvomen_evaluate(
    const uint32_t *sheet, const uint8_t *places, uint32_t place, const uint8_t *meanings, size_t,
    const int32_t *readings, size_t);

#ifdef __cplusplus
}
#endif

/*
 * Works out the tree that the place holds. The meaning of operator o is byte o of `meanings`; it has none if the list ends
 * before, or if that byte is no meaning of its kind. The value of reading 80 is the first of `readings`, the value of 81
 * the second, and so on. Brackets pass on what is inside them. Every operator of the tree must have a meaning and every
 * reading a value, even where the rest alone would settle the answer. Numbers: 8, 9, 13, 14.
 */
PANEL_NODISCARD static inline struct panel_value panel_evaluate(
    const struct panel *p, unsigned place, const uint8_t *meanings, size_t meaning_count,
    const int32_t *readings, size_t reading_count) {
    int32_t none = 0;
    const int32_t *from = reading_count == 0 ? &none : readings;
    struct panel_raw_value raw = tihvomen_evaluate(
        p->sheet.words, p->places, place, panel_from(meanings, meaning_count), meaning_count, from, reading_count);
    struct panel_value evaluated;
    evaluated.number = (enum panel_number)raw.number;
    evaluated.value = raw.value;
    return evaluated;
}

#endif
