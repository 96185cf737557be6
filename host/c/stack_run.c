/* A call on a stack of its own, which ends at a page that no one may touch. */
#ifndef _GNU_SOURCE
#define _GNU_SOURCE
#endif
#include "stack_run.h"

#include <stdint.h>
#include <stdio.h>
#include <stdlib.h>
#include <string.h>
#include <sys/mman.h>
#include <sys/resource.h>
#include <sys/wait.h>
#include <ucontext.h>
#include <unistd.h>

enum { PAINT = 0x5A };

static ucontext_t caller, called;
static void (*body)(void);

static void enter(void)
{
    body();
}

static void give_up(const char *what)
{
    perror(what);
    exit(2);
}

size_t run_on(size_t size, void (*call)(void))
{
    void *start = mmap(NULL, PAGE + size, PROT_READ | PROT_WRITE, MAP_PRIVATE | MAP_ANONYMOUS, -1, 0);
    if (start == MAP_FAILED || mprotect(start, PAGE, PROT_NONE) != 0 || getcontext(&called) != 0)
        give_up("stack");
    uint8_t *stack = (uint8_t *)start + PAGE;
    memset(stack, PAINT, size);
    called.uc_stack.ss_sp = stack;
    called.uc_stack.ss_size = size;
    called.uc_link = &caller;
    body = call;
    makecontext(&called, enter, 0);
    if (swapcontext(&caller, &called) != 0)
        give_up("stack");
    size_t untouched = 0;
    while (untouched < size && stack[untouched] == PAINT)
        untouched++;
    munmap(start, PAGE + size);
    return size - untouched;
}

bool dies_on(size_t size, void (*call)(void))
{
    fflush(stdout);
    pid_t child = fork();
    if (child < 0)
        give_up("fork");
    if (child == 0) {
        const struct rlimit no_core = {0, 0};
        setrlimit(RLIMIT_CORE, &no_core);
        run_on(size, call);
        _exit(0);
    }
    int status = 0;
    if (waitpid(child, &status, 0) != child)
        give_up("wait");
    return WIFSIGNALED(status);
}
