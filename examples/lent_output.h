/* What a call wrote to a lent output that was filled with 0xEE. */
#ifndef TIHVOMEN_LENT_OUTPUT_H
#define TIHVOMEN_LENT_OUTPUT_H

#include "panel.h"

#include <string.h>

/* The number is the one given, and the output's bytes are all 0xEE still. */
static inline bool untouched(struct panel_answer answer, enum panel_number number, const uint8_t *out, size_t room) {
    for (size_t i = 0; i < room; i++)
        if (out[i] != 0xEE)
            return false;
    return answer.number == number && answer.length == 0;
}

/* The answer is these bytes, and the output past them is 0xEE still. All of it is then 0xEE again. */
static inline bool wrote(struct panel_answer answer, const uint8_t *bytes, size_t length, uint8_t *out, size_t room) {
    bool right = answer.number == PANEL_ACCEPTED && answer.length == length && memcmp(out, bytes, length) == 0;
    for (size_t i = length; i < room; i++)
        right = right && out[i] == 0xEE;
    memset(out, 0xEE, room);
    return right;
}

#endif
