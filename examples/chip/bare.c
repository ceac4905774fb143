/* What a board without a C library owes the compiler, and the measure of its stack. */
#include "board.h"

#include <stddef.h>

enum { PAINT = 0xA5 };

extern uint8_t stack_begin[], stack_end[];

void *memcpy(void *to, const void *from, size_t size)
{
    for (size_t i = 0; i < size; i++)
        ((uint8_t *)to)[i] = ((const uint8_t *)from)[i];
    return to;
}

void *memmove(void *to, const void *from, size_t size)
{
    if ((uintptr_t)to <= (uintptr_t)from)
        return memcpy(to, from, size);
    for (size_t i = size; i > 0; i--)
        ((uint8_t *)to)[i - 1] = ((const uint8_t *)from)[i - 1];
    return to;
}

void *memset(void *to, int byte, size_t size)
{
    for (size_t i = 0; i < size; i++)
        ((uint8_t *)to)[i] = (uint8_t)byte;
    return to;
}

#ifdef __arm__
/* The names of Arm's run-time ABI for the same. */
#define COPY(name) void name(void *to, const void *from, size_t size) { memcpy(to, from, size); }
#define MOVE(name) void name(void *to, const void *from, size_t size) { memmove(to, from, size); }
#define FILL(name) void name(void *to, size_t size, int byte) { memset(to, byte, size); }
#define CLEAR(name) void name(void *to, size_t size) { memset(to, 0, size); }
COPY(__aeabi_memcpy)
COPY(__aeabi_memcpy4)
COPY(__aeabi_memcpy8)
MOVE(__aeabi_memmove)
MOVE(__aeabi_memmove4)
MOVE(__aeabi_memmove8)
FILL(__aeabi_memset)
FILL(__aeabi_memset4)
FILL(__aeabi_memset8)
CLEAR(__aeabi_memclr)
CLEAR(__aeabi_memclr4)
CLEAR(__aeabi_memclr8)
#endif

uint32_t board_stack(void)
{
    const uint8_t *deepest = stack_begin;

    while (*deepest == PAINT)
        deepest++;
    return (uint32_t)(stack_end - deepest);
}
