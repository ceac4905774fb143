/* The calls of examples/c/bench.c by a reader's end and the card's blocks, instead of soffitfennel_command. The line
 * between both ends is here, with a block to lose and one to garble (docs/SCRIPT.md). */
#include "by_reader.h"

#include <stdbool.h>
#include <string.h>

/* The most blocks of a command, in both directions together, as in the bench. */
enum { MOST_BLOCKS = 1000 };

static soffitfennel_reader *reader;
static uint32_t lose, garble;
static bool has_power, is_linked;

/* Whether a fault comes to this block. */
static bool is_due(uint32_t *fault)
{
    bool is_now = *fault == 1;

    *fault -= *fault > 0;
    return is_now;
}

/* Lets a block of size bytes over the line, and returns the size of what arrives. */
static size_t pass(uint8_t *block, size_t size)
{
    bool is_lost = is_due(&lose), is_garbled = is_due(&garble);

    if (is_garbled && size > 0)
        block[size - 1] ^= 1;
    return is_lost ? 0 : size;
}

int32_t by_reader_power_on(soffitfennel_card **card)
{
    int32_t outcome = soffitfennel_power_on(card);

    has_power = is_linked = outcome == SOFFITFENNEL_DONE;
    if (soffitfennel_reader_new(&reader) != SOFFITFENNEL_DONE)
        is_linked = false;
    return outcome;
}

int32_t by_reader_power_off(soffitfennel_card **card)
{
    has_power = false;
    soffitfennel_reader_free(&reader);
    return soffitfennel_power_off(card);
}

int32_t by_reader_lose(soffitfennel_card **card, uint32_t number)
{
    if (number < 1 || number > SOFFITFENNEL_NUMBER)
        return *card == NULL ? SOFFITFENNEL_ABSENT : SOFFITFENNEL_SIZE;
    lose = number;
    return SOFFITFENNEL_DONE;
}

int32_t by_reader_garble(soffitfennel_card **card, uint32_t number)
{
    if (number < 1 || number > SOFFITFENNEL_NUMBER)
        return *card == NULL ? SOFFITFENNEL_ABSENT : SOFFITFENNEL_SIZE;
    garble = number;
    return SOFFITFENNEL_DONE;
}

/* A block of a script goes past the reader's end, which is out of step then. */
int32_t by_reader_block(soffitfennel_card **card, const uint8_t *block, size_t count, uint8_t *reply, size_t room,
                        size_t *size)
{
    int32_t outcome = soffitfennel_block(card, block, count, reply, room, size);

    has_power = has_power && outcome == SOFFITFENNEL_DONE;
    is_linked = false;
    return outcome;
}

/* Sends the block in the buffer, and gives the reader what comes back. */
static int32_t turn(soffitfennel_card **card, uint8_t *buffer, size_t *size, int *blocks)
{
    uint8_t received[SOFFITFENNEL_ROOM];
    size_t got = pass(buffer, *size);

    ++*blocks;
    if (got > 0) {
        int32_t outcome = soffitfennel_block(card, buffer, got, received, sizeof received, &got);
        if (outcome != SOFFITFENNEL_DONE) {
            has_power = false;
            return outcome;
        }
        got = pass(received, got);
        ++*blocks;
    }
    return soffitfennel_reader_receive(&reader, received, got, buffer, SOFFITFENNEL_ROOM, size);
}

int32_t by_reader_command(soffitfennel_card **card, const uint8_t *command, size_t count, uint8_t *answer, size_t room,
                          size_t *size)
{
    int blocks = 0;

    *size = 0;
    if (!has_power)
        return SOFFITFENNEL_MUTE;
    if (!is_linked)
        return SOFFITFENNEL_LOST;
    int32_t outcome = soffitfennel_reader_command(&reader, command, count, answer, room, size);
    while (outcome == SOFFITFENNEL_SEND && blocks < MOST_BLOCKS)
        outcome = turn(card, answer, size, &blocks);
    if (outcome == SOFFITFENNEL_RESYNCHED || outcome == SOFFITFENNEL_BAD_ANSWER || outcome == SOFFITFENNEL_SEND)
        outcome = SOFFITFENNEL_LOST;
    if (outcome != SOFFITFENNEL_DONE)
        *size = 0;
    return outcome;
}
