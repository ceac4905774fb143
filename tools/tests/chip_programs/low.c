/* This machine as a board whose stack lies below 4 GiB, as all else does that the card reaches. */
#define main host_main
#include "board_host.c"
#undef main

#include <ucontext.h>

enum { STACK = 1 << 18 };

static char stack[STACK];
static ucontext_t low, first;

int main(void)
{
    if ((uintptr_t)stack >> 32 != 0 || getcontext(&low) != 0)
        return EXIT_FAILURE;
    low.uc_stack.ss_sp = stack;
    low.uc_stack.ss_size = sizeof stack;
    low.uc_link = &first;
    makecontext(&low, run, 0);
    return swapcontext(&first, &low) == 0 ? EXIT_SUCCESS : EXIT_FAILURE;
}
