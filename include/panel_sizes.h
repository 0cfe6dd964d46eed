/* The panel's version, its tokens and its sizes. */
#ifndef TIHVOMEN_PANEL_SIZES_H
#define TIHVOMEN_PANEL_SIZES_H

#define PANEL_VERSION_MAJOR 0
#define PANEL_VERSION_MINOR 2
#define PANEL_VERSION_PATCH 3
#define PANEL_VERSION "0.2.3"

/* Tokens. The operators are 00 to 1F, the readings PANEL_FIRST_READING to FF. */
enum {
    PANEL_OPENING = 0x20,      /* the opening bracket of a row, and the bracket node of a record */
    PANEL_CLOSING = 0x21,      /* the closing bracket; records have none */
    PANEL_FIRST_READING = 0x80 /* the reading whose value is lent first */
};

enum {
    PANEL_PLACES = 16,                                     /* places 0 to 15 */
    PANEL_MOST_OPERATORS = 32,                             /* operators of a sheet */
    PANEL_MOST_RULES = 2048,                               /* rules of a sheet */
    PANEL_MOST_TOKENS = 255,                               /* room for every row and every record */
    PANEL_MOST_EXPLAINED = 1 + 3 * 7,                      /* room for every explanation: the verdict, a row, two records */
    /* characters of a line: 12,356, for the longest sheet */
    PANEL_MOST_LINE = 2 * (2 + PANEL_MOST_OPERATORS + 3 * PANEL_MOST_RULES),
    PANEL_IMAGE_BYTES = 1 + PANEL_MOST_TOKENS,             /* the length of an image: a record's length and the record */
    PANEL_MOST_REPLY = 2 * (1 + PANEL_IMAGE_BYTES),        /* room for every reply: number and answer in digits */
    PANEL_STORE_BYTES = PANEL_PLACES * PANEL_IMAGE_BYTES,  /* what the places take */
    PANEL_SHEET_WORDS = 36                                 /* what a sheet takes, in words of 32 bits */
};

#endif
