/* A reader's end of the library for tools/badcard. */
#include "../engines/reader_lines.h"
#include "soffitfennel.h"

enum { MOST_BLOCKS = 500 };

static soffitfennel_reader *reader;

/* Sends a command, and prints its answer. */
static void transmit(const uint8_t *command, size_t count)
{
    uint8_t buffer[SOFFITFENNEL_ROOM], received[SOFFITFENNEL_BLOCK];
    size_t size;
    int32_t outcome = soffitfennel_reader_command(&reader, command, count, buffer, sizeof buffer, &size);

    for (int blocks = 0; outcome == SOFFITFENNEL_SEND && blocks < MOST_BLOCKS; blocks++) {
        size_t got = exchange_blocks(buffer, size, received, sizeof received);
        outcome = soffitfennel_reader_receive(&reader, received, got, buffer, sizeof buffer, &size);
    }
    print_answer(outcome == SOFFITFENNEL_DONE, buffer, size);
}

static bool power_on(char line[LINE])
{
    soffitfennel_reader_reset(&reader);
    return ask(line);
}

int main(int count, char **words)
{
    if (!start_card(count, words))
        return 2;
    if (soffitfennel_reader_new(&reader) != SOFFITFENNEL_DONE)
        return 1;
    serve(power_on, transmit);
    soffitfennel_reader_free(&reader);
    return 0;
}
