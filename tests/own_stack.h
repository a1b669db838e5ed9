// Runs a function on a painted stack of its own, to see what it leaves there. For programs that define
// _XOPEN_SOURCE 700 or _GNU_SOURCE.
#ifndef OWN_STACK_H
#define OWN_STACK_H

#include <stddef.h>
#include <stdint.h>
#include <ucontext.h>

enum { STACK = 1 << 17, PAINT = 0xa5 };
static uint8_t stack[STACK];

// The stack is painted without memset, so that a function that calls it first has it bound on the painted stack.
static void run_on_stack(void (*function)(void)) {
    static ucontext_t here, there;
    for (volatile uint8_t *byte = stack; byte < stack + STACK; byte++)
        *byte = PAINT;
    getcontext(&there);
    there.uc_stack.ss_sp = stack;
    there.uc_stack.ss_size = STACK;
    there.uc_link = &here;
    makecontext(&there, function, 0);
    swapcontext(&here, &there);
}

// The bytes from the lowest one that the function changed to the top.
static size_t depth(void) {
    size_t low = 0;
    while (low < STACK && stack[low] == PAINT)
        low++;
    return STACK - low;
}

#endif
