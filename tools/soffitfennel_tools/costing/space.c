/* Makes one call of the library, so that tools/dev/cost can tell what it takes of the stack and the heap: space PAGES
 * [device]. Standard input has a line for each call. That of the last line runs on a stack of its own, which is painted
 * before. Prints the bytes that it used of the stack, and the most bytes of heap that were ever in use.
 *
 * It is linked with --wrap=malloc and --wrap=free. */
#include "call_lines.h"

#include <pthread.h>
#include <stddef.h>

enum { STACK = 1 << 18, PAINT = 0xA5, NEAR = 256 };

struct run {
    soffitfennel_card *card;
    struct call call;
    int32_t outcome;
    size_t used;
};

/* What is before each piece of memory. */
struct piece {
    _Alignas(max_align_t) size_t size;
};

static _Alignas(4096) uint8_t stack[STACK];
static size_t in_use, most;

void *__real_malloc(size_t size);
void __real_free(void *memory);
void *__wrap_malloc(size_t size);
void __wrap_free(void *memory);

void *__wrap_malloc(size_t size)
{
    struct piece *piece = __real_malloc(sizeof *piece + size);

    if (piece == NULL)
        return NULL;
    piece->size = size;
    in_use += size;
    most = in_use > most ? in_use : most;
    return piece + 1;
}

void __wrap_free(void *memory)
{
    if (memory == NULL)
        return;
    struct piece *piece = (struct piece *)memory - 1;
    in_use -= piece->size;
    __real_free(piece);
}

int64_t soffitfennel_store(int32_t device, const void *bytes, size_t size, int64_t offset)
{
    (void)device, (void)bytes, (void)offset;
    return (int64_t)size;
}

/* Makes a call on a painted stack. (The paint begins below what this function and memset use.) */
static void *make(void *given)
{
    struct run *run = given;
    const uint8_t *here = __builtin_frame_address(0);
    size_t at = 0;

    memset(stack, PAINT, (size_t)(here - stack) - NEAR);
    run->outcome = run->call.make(&run->card, &run->call);
    while (at < STACK && stack[at] == PAINT)
        at++;
    run->used = (size_t)(here - stack) - at;
    return NULL;
}

static bool make_apart(struct run *run)
{
    pthread_attr_t painted;
    pthread_t thread;

    return pthread_attr_init(&painted) == 0 && pthread_attr_setstack(&painted, stack, sizeof stack) == 0
           && pthread_create(&thread, &painted, make, run) == 0 && pthread_join(thread, NULL) == 0;
}

int main(int given, char **arguments)
{
    struct run run = {.call = {.make = free_space}};

    if (given < 2 || !make_card(&run.card, strtoul(arguments[1], NULL, 10), given > 2)
        || !make_calls(&run.card, &run.call) || !make_apart(&run))
        return EXIT_FAILURE;
    printf("%d %zu %zu\n", run.outcome, run.used, most);
    soffitfennel_free(&run.card);
    return EXIT_SUCCESS;
}
