/* Runs a whole script by one call, and prints what ./bench prints: whole SCRIPT. The status is the bench's. With too
 * little room the output is refused, and nothing is copied. */
#include "soffitfennel.h"

#include <stdio.h>
#include <stdlib.h>
#include <string.h>

enum { ROOM = 1 << 20, UNWRITABLE = 4 };

int main(int argc, char **argv)
{
    static uint8_t script[ROOM], output[ROOM];
    FILE *file = argc > 1 ? fopen(argv[1], "rb") : NULL;
    size_t size = 0, again = 9;

    if (file == NULL)
        return 9;
    size_t count = fread(script, 1, sizeof script, file);
    fclose(file);
    int32_t status = soffitfennel_run(script, count, output, sizeof output, &size);
    uint8_t *exact = malloc(size == 0 ? 1 : size);
    if (exact == NULL || soffitfennel_run(script, count, exact, size, &again) != status || again != size
        || memcmp(exact, output, size) != 0)
        return 8;
    if (size > 0 && (soffitfennel_run(script, count, exact, size - 1, &again) != UNWRITABLE || again != 0))
        return 7;
    free(exact);
    fwrite(output, 1, size, stdout);
    return status;
}
