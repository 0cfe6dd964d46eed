/* A painted stack, which shows how much of it a function took. To be included before all else. */
#ifndef TIHVOMEN_PAINTED_STACK_H
#define TIHVOMEN_PAINTED_STACK_H

#define _XOPEN_SOURCE 600
#include <stddef.h>
#include <stdint.h>
#include <ucontext.h>

enum { STACK_WORDS = 8192 };

/* No function leaves this word at the lower end of what it took: it is no address and no length. */
static const uint64_t paint = 0x5A5A5A5A5A5A5A5A;

static uint64_t stack[STACK_WORDS];
static size_t lowest;
static ucontext_t home, away;
static void (*run)(void);

/* Runs on the painted stack, and looks there how far down the paint is gone. */
static void run_and_look(void) {
    run();
    for (lowest = 0; lowest < STACK_WORDS && stack[lowest] == paint; lowest++)
        ;
}

/* The bytes that a function and its way in take. What a function that does nothing takes is the way in. */
static size_t bytes_taken_by(void (*what)(void)) {
    run = what;
    for (size_t i = 0; i < STACK_WORDS; i++)
        stack[i] = paint;
    getcontext(&away);
    away.uc_stack.ss_sp = stack;
    away.uc_stack.ss_size = sizeof stack;
    away.uc_link = &home;
    makecontext(&away, run_and_look, 0);
    swapcontext(&home, &away);
    return (STACK_WORDS - lowest) * sizeof stack[0];
}

#endif
