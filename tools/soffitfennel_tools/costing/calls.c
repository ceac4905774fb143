/* Makes calls of the library, so that tools/dev/cost can count what one takes: calls COUNT [device]. Standard input has
 * a line for each call. The call of the last line is made COUNT times. A card with a device has one that takes each
 * write and does nothing with it. */
#include "call_lines.h"

int64_t soffitfennel_store(int32_t device, const void *bytes, size_t size, int64_t offset)
{
    (void)device, (void)bytes, (void)offset;
    return (int64_t)size;
}

int main(int given, char **arguments)
{
    soffitfennel_card *card = NULL;
    struct call call = {.make = free_space};

    if (given < 2 || !make_card(&card, SOFFITFENNEL_PAGES, given > 2) || !make_calls(&card, &call))
        return EXIT_FAILURE;
    for (int left = atoi(arguments[1]); left > 0; left--)
        if (call.make(&card, &call) != SOFFITFENNEL_DONE)
            return EXIT_FAILURE;
    soffitfennel_free(&card);
    return EXIT_SUCCESS;
}
