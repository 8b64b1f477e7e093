/* For stack.rs: a job on a stack of WINDOW_STACK bytes. A job that needs more ends the test by a signal. */
#define _DEFAULT_SOURCE
#include <string.h>
#include <sys/mman.h>
#include <ucontext.h>

#include "check.h"

#define UNUSED 0xa5

static void (*job)(void *);
static void *argument;

static void start(void)
{
    job(argument);
}

/* As many bytes below it cannot be touched, so that no frame passes over them. */
static uint8_t *new_stack(void)
{
    uint8_t *all = mmap(NULL, 2 * WINDOW_STACK, PROT_NONE, MAP_PRIVATE | MAP_ANONYMOUS, -1, 0);
    CHECK(all != MAP_FAILED);
    CHECK(mprotect(all + WINDOW_STACK, WINDOW_STACK, PROT_READ | PROT_WRITE) == 0);
    return all + WINDOW_STACK;
}

size_t small_stack_size(void)
{
    return WINDOW_STACK;
}

/* Does the job there; how many bytes, from the stack's end down, it wrote. */
size_t on_small_stack(void (*to_do)(void *), void *with)
{
    static uint8_t *stack;
    static ucontext_t here, there;
    if (stack == NULL)
        stack = new_stack();
    memset(stack, UNUSED, WINDOW_STACK);
    job = to_do;
    argument = with;
    CHECK(getcontext(&there) == 0);
    there.uc_stack.ss_sp = stack;
    there.uc_stack.ss_size = WINDOW_STACK;
    there.uc_link = &here;
    makecontext(&there, start, 0);
    CHECK(swapcontext(&here, &there) == 0);
    size_t unused = 0;
    while (unused < WINDOW_STACK && stack[unused] == UNUSED)
        unused++;
    return WINDOW_STACK - unused;
}
