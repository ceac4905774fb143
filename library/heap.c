/* The heap of the library, by the C library's malloc and free. Memory is overwritten before it is freed, since it held
 * PINs. */
#include <stdbool.h>
#include <stddef.h>
#include <stdint.h>
#include <stdlib.h>
#include <string.h>

/* What a try to get memory gives. The pointer is never null. */
struct tried {
    bool is_done;
    uint8_t *memory;
};

/* What is before each piece of memory. */
struct piece {
    _Alignas(max_align_t) size_t size;
};

static uint8_t nothing;

/* (volatile: a compiler that knows memset leaves out one whose bytes nobody reads) */
static void *(*volatile const overwrite)(void *, int, size_t) = memset;

struct tried rattle_alloc(size_t size, size_t align);
struct tried rattle_realloc(void *memory, size_t kept, size_t size, size_t align);
void rattle_dealloc(void *memory);

/* No type of the library needs more than the alignment of malloc. */
struct tried rattle_alloc(size_t size, size_t align)
{
    struct piece *piece = size > SIZE_MAX - sizeof *piece ? NULL : malloc(sizeof *piece + size);

    (void)align;
    if (piece == NULL)
        return (struct tried){false, &nothing};
    piece->size = size;
    return (struct tried){true, (uint8_t *)(piece + 1)};
}

/* (realloc would leave the old bytes where the memory moves) */
struct tried rattle_realloc(void *memory, size_t kept, size_t size, size_t align)
{
    struct tried result = rattle_alloc(size, align);

    if (result.is_done) {
        memcpy(result.memory, memory, kept < size ? kept : size);
        rattle_dealloc(memory);
    }
    return result;
}

void rattle_dealloc(void *memory)
{
    struct piece *piece = (struct piece *)memory - 1;

    overwrite(piece, 0, sizeof *piece + piece->size);
    free(piece);
}
