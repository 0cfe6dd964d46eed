/* A check that says where it failed. A program ends with whether any did. */
#ifndef TIHVOMEN_CHECK_H
#define TIHVOMEN_CHECK_H

#include <stdio.h>

static int failures = 0;

#define CHECK(what)                                                    \
    do {                                                               \
        if (!(what)) {                                                 \
            fprintf(stderr, "%s:%d: %s\n", __FILE__, __LINE__, #what); \
            failures++;                                                \
        }                                                              \
    } while (0)

#endif
