/* A call on a stack of its own, which ends at a page that no one may touch. */
#ifndef STACK_RUN_H
#define STACK_RUN_H

#include <stdbool.h>
#include <stddef.h>

enum { PAGE = 4096 };

/* Runs the call on a stack of so many bytes, a whole number of pages, and gives the number of bytes from the top of the stack to the
 * lowest one that was written. */
size_t run_on(size_t size, void (*call)(void));

/* Whether the call ends its process by a signal on a stack of so many bytes. */
bool dies_on(size_t size, void (*call)(void));

#endif
