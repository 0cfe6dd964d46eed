/*
 * A program without any library but the panel's: it enters by itself, has a memcpy and a memset of its own, and ends with
 * status 0 if the answers are right. For Linux on x86-64; made with -ffreestanding -nostdlib.
 */
#include "panel.h"

__asm__(
    ".globl _start\n"
    "_start:\n"
    "    xor %ebp, %ebp\n"
    "    and $-16, %rsp\n"
    "    call run\n"
    "    mov %eax, %edi\n"
    "    mov $60, %eax\n" /* exit */
    "    syscall\n");

void *memcpy(void *to, const void *from, size_t length);
void *memset(void *to, int byte, size_t length);
int run(void);

/* Not as loops: a compiler may make a call of memcpy out of one. */
void *memcpy(void *to, const void *from, size_t length) {
    void *at = to;
    __asm__ volatile("rep movsb" : "+D"(at), "+S"(from), "+c"(length) : : "memory");
    return to;
}

void *memset(void *to, int byte, size_t length) {
    void *at = to;
    __asm__ volatile("rep stosb" : "+D"(at), "+c"(length) : "a"(byte) : "memory");
    return to;
}

static size_t length_of(const char *text) {
    size_t length = 0;
    while (text[length] != 0)
        length++;
    return length;
}

static bool same(const void *one, const void *other, size_t length) {
    const uint8_t *a = (const uint8_t *)one, *b = (const uint8_t *)other;
    for (size_t i = 0; i < length; i++)
        if (a[i] != b[i])
            return false;
    return true;
}

/* A row is put, and its record fetched. */
static bool row_is_right(void) {
    static const uint8_t sheet[] = {PANEL_INFIX, PANEL_INFIX, PANEL_PRIORITY, 1, 0, PANEL_LEFT, 1, 1, PANEL_LEFT, 0, 0};
    static const uint8_t row[] = {PANEL_OPENING, 0x80, 0x00, 0x81, PANEL_CLOSING, 0x01, 0x82};
    static const uint8_t record[] = {0x01, PANEL_OPENING, 0x00, 0x80, 0x81, 0x82};
    struct panel p;
    uint8_t out[PANEL_MOST_TOKENS];
    panel_fresh(&p);
    if (panel_stage(&p, 2, sheet, sizeof sheet) != PANEL_ACCEPTED || panel_switch(&p) != PANEL_ACCEPTED)
        return false;
    if (panel_put_row(&p, 3, row, sizeof row) != PANEL_ACCEPTED)
        return false;
    struct panel_answer answer = panel_fetch_record(&p, 3, out, sizeof out);
    return answer.number == PANEL_ACCEPTED && answer.length == sizeof record && same(out, record, sizeof record);
}

/* The listing of docs/REFERENCE.md, section 8. */
static bool lines_are_right(void) {
    static const char *const lines[][2] = {
        {"01020000010100020101020000", "00"},
        {"0a", "00"},
        {"02038000810182", "00"},
        {"0403", "000080018182"},
        {"0304", "09"},
        {"01020000010001020101020000", "00"},
        {"0a", "00"},
        {"0403", "000100808182"}};
    struct panel p = PANEL_FRESH;
    for (size_t i = 0; i < sizeof lines / sizeof lines[0]; i++) {
        char out[PANEL_MOST_REPLY];
        size_t length = panel_reply(&p, lines[i][0], length_of(lines[i][0]), out);
        if (length != length_of(lines[i][1]) || !same(out, lines[i][1], length))
            return false;
    }
    return true;
}

int run(void) {
    return row_is_right() && lines_are_right() ? 0 : 1;
}
