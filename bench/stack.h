/* stack.h - how much stack a call takes. */
#ifndef STACK_H
#define STACK_H

#include <stddef.h>

/* The bytes of stack that the call writes at the deepest, less what an empty call does. */
size_t stack_of(void (*call)(void *), void *argument);

#endif
