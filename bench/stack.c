/* stack.c - a call on a stack of its own, filled with a pattern before; what is no longer the pattern was written. */
#include "stack.h"

#include <stdlib.h>
#include <string.h>
#include <ucontext.h>

enum { STACK = 1 << 21, PAINT = 0xa5 };

static struct {
    ucontext_t back, there;
    unsigned char stack[STACK];
    void (*call)(void *);
    void *argument;
} on;

static void enter(void)
{
    on.call(on.argument);
}

static void nothing(void *argument)
{
    (void)argument;
}

/* From the top of the stack to the lowest byte that was written. */
static size_t depth(void (*call)(void *), void *argument)
{
    size_t low = 0;

    memset(on.stack, PAINT, STACK);
    on.call = call;
    on.argument = argument;
    if (getcontext(&on.there) != 0)
        exit(2);
    on.there.uc_stack.ss_sp = on.stack;
    on.there.uc_stack.ss_size = STACK;
    on.there.uc_link = &on.back;
    makecontext(&on.there, enter, 0);
    if (swapcontext(&on.back, &on.there) != 0)
        exit(2);
    while (low < STACK && on.stack[low] == PAINT)
        low++;
    return STACK - low;
}

size_t stack_of(void (*call)(void *), void *argument)
{
    return depth(call, argument) - depth(nothing, NULL);
}
