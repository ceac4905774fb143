/* A reader's end and a card over a line that loses and garbles blocks at random: lossy_line COMMANDS SEED. A command
 * that is DONE ran once, with its answer; any other ran at most once. It prints the number of each outcome. */
#include "soffitfennel.h"

#include <stdbool.h>
#include <stdio.h>
#include <stdlib.h>
#include <string.h>

enum { MOST_BLOCKS = 1000, LONGEST = 1000000 };

static soffitfennel_card *card;
static soffitfennel_reader *reader;
static uint64_t state;
/* One block of so many is lost, and one garbled; 0: none. */
static unsigned rate;

/* A cyclic file of three records of three bytes, its first value, INCREASE by one, READ RECORD of the last, SELECT
 * (docs/CARD.md). */
static const uint8_t create[] = {0x00, 0xE0, 0x00, 0x00, 0x1A, 0x62, 0x18, 0x82, 0x04, 0x46, 0x21, 0x00, 0x03,
                                 0x83, 0x02, 0x6F, 0x03, 0x88, 0x00, 0x80, 0x02, 0x00, 0x09, 0x8A, 0x01, 0x05,
                                 0x8C, 0x03, 0x03, 0x00, 0x00};
static const uint8_t update[] = {0x00, 0xDC, 0x00, 0x03, 0x03, 0x00, 0x00, 0x05};
static const uint8_t increase[] = {0x80, 0x32, 0x00, 0x00, 0x03, 0x00, 0x00, 0x01, 0x00};
static const uint8_t read_value[] = {0x00, 0xB2, 0x01, 0x04, 0x03};
static const uint8_t select_file[] = {0x00, 0xA4, 0x00, 0x0C, 0x02, 0x6F, 0x03};

static void must(bool holds, const char *what)
{
    if (!holds) {
        fprintf(stderr, "lossy_line: %s\n", what);
        exit(1);
    }
}

static unsigned chance(unsigned of)
{
    state = state * 6364136223846793005u + 1442695040888963407u;
    return (unsigned)((state >> 33) % of);
}

/* Lets a block over the line, and returns the size of what arrives: 0 of a block that is lost. */
static size_t pass(uint8_t *block, size_t size)
{
    if (rate != 0 && chance(rate) == 0)
        return 0;
    if (rate != 0 && size > 0 && chance(rate) == 0)
        block[chance((unsigned)size)] ^= (uint8_t)(1u << chance(8));
    return size;
}

/* Sends a command, and returns its outcome. */
static int32_t transmit(const uint8_t *command, size_t count, uint8_t buffer[SOFFITFENNEL_ROOM], size_t *size)
{
    uint8_t received[SOFFITFENNEL_ROOM];
    int32_t outcome = soffitfennel_reader_command(&reader, command, count, buffer, SOFFITFENNEL_ROOM, size);

    for (int blocks = 0; outcome == SOFFITFENNEL_SEND; blocks++) {
        must(blocks < MOST_BLOCKS, "a command without end");
        size_t got = pass(buffer, *size);
        if (got > 0) {
            int32_t came = soffitfennel_block(&card, buffer, got, received, sizeof received, &got);
            must(came == SOFFITFENNEL_DONE, "no block");
            got = pass(received, got);
        }
        outcome = soffitfennel_reader_receive(&reader, received, got, buffer, SOFFITFENNEL_ROOM, size);
    }
    return outcome;
}

/* The value of the last record, over a perfect line, after a reset of both ends: the card keeps its files. */
static unsigned long value_of(void)
{
    uint8_t answer[SOFFITFENNEL_ROOM];
    size_t size;
    unsigned before = rate;

    rate = 0;
    must(soffitfennel_power_on(&card) == SOFFITFENNEL_DONE, "no power");
    must(soffitfennel_reader_reset(&reader) == SOFFITFENNEL_DONE, "no reset");
    must(transmit(select_file, sizeof select_file, answer, &size) == SOFFITFENNEL_DONE, "no file");
    must(transmit(read_value, sizeof read_value, answer, &size) == SOFFITFENNEL_DONE && size == 5, "no value");
    rate = before;
    return 65536ul * answer[0] + 256ul * answer[1] + answer[2];
}

/* One INCREASE over the line. */
static void increase_once(unsigned long counts[4])
{
    uint8_t answer[SOFFITFENNEL_ROOM];
    size_t size;
    unsigned long was = value_of();
    int32_t outcome = transmit(increase, sizeof increase, answer, &size);
    unsigned long now = value_of();

    must(now == was || now == was + 1, "a command ran twice");
    if (outcome == SOFFITFENNEL_DONE) {
        must(now == was + 1 && size == 8 && answer[6] == 0x90 && answer[7] == 0, "a wrong answer");
        must(65536ul * answer[0] + 256ul * answer[1] + answer[2] == now, "an answer to another command");
    }
    counts[0] += outcome == SOFFITFENNEL_DONE;
    counts[1] += outcome == SOFFITFENNEL_RESYNCHED;
    counts[2] += outcome == SOFFITFENNEL_LOST;
    counts[3] += outcome == SOFFITFENNEL_BAD_ANSWER;
}

/* Whatever a call gets, it refuses it, and changes nothing. */
static void test_refusals(void)
{
    uint8_t given[SOFFITFENNEL_COMMAND + 1] = {0}, out[SOFFITFENNEL_ROOM];
    const size_t room = sizeof out, longest = SOFFITFENNEL_COMMAND;
    soffitfennel_reader *none = NULL;
    size_t size = 9;

    must(soffitfennel_reader_command(&none, given, 5, out, room, &size) == SOFFITFENNEL_ABSENT && size == 0, "none");
    must(soffitfennel_reader_receive(&none, given, 5, out, room, &size) == SOFFITFENNEL_ABSENT, "no reader");
    must(soffitfennel_reader_reset(&none) == SOFFITFENNEL_ABSENT && none == NULL, "no reader is reset");
    soffitfennel_reader_free(&none);
    must(soffitfennel_reader_receive(&reader, given, 5, out, room, &size) == SOFFITFENNEL_OUT_OF_TURN, "idle");
    must(soffitfennel_reader_command(&reader, NULL, 0, out, room, &size) == SOFFITFENNEL_SIZE && size == 0, "empty");
    must(soffitfennel_reader_command(&reader, given, longest + 1, out, room, &size) == SOFFITFENNEL_SIZE, "long");
    must(soffitfennel_reader_command(&reader, given, 5, out, room - 1, &size) == SOFFITFENNEL_SIZE, "no room");
    must(soffitfennel_reader_command(&reader, given, 5, out, room, &size) == SOFFITFENNEL_SEND && size == 9, "sent");
    must(soffitfennel_reader_command(&reader, given, 5, out, room, &size) == SOFFITFENNEL_OUT_OF_TURN, "busy");
    must(soffitfennel_reader_receive(&reader, given, 5, NULL, 0, &size) == SOFFITFENNEL_SIZE && size == 0, "nowhere");
    must(soffitfennel_reader_receive(&reader, NULL, 0, out, room, &size) == SOFFITFENNEL_SEND, "nothing in time");
    must(size == 4 && memcmp(out, "\x00\x82\x00\x82", 4) == 0, "an R-block asks for the answer");
    must(soffitfennel_reader_reset(&reader) == SOFFITFENNEL_DONE, "a reset within a command");
    must(soffitfennel_reader_new(&reader) == SOFFITFENNEL_DONE && reader != NULL, "a reader in place of another");
}

/* A card that is silent: three R-blocks, three requests for RESYNCH, and the link is lost until the reset. */
static void test_silence(void)
{
    uint8_t out[SOFFITFENNEL_ROOM];
    size_t size;
    int sent = 1;

    int32_t outcome = soffitfennel_reader_command(&reader, read_value, sizeof read_value, out, sizeof out, &size);
    while (outcome == SOFFITFENNEL_SEND && sent++ < MOST_BLOCKS)
        outcome = soffitfennel_reader_receive(&reader, NULL, 0, out, sizeof out, &size);
    must(outcome == SOFFITFENNEL_LOST && size == 0 && sent == 8, "a silent card");
    outcome = soffitfennel_reader_command(&reader, read_value, sizeof read_value, out, sizeof out, &size);
    must(outcome == SOFFITFENNEL_LOST && size == 0, "a command over a lost link");
    must(soffitfennel_reader_reset(&reader) == SOFFITFENNEL_DONE, "a reset");
}

int main(int count, char **words)
{
    unsigned long counts[4] = {0}, commands;
    uint8_t answer[SOFFITFENNEL_ROOM];
    size_t size;

    must(count == 3, "usage: lossy_line COMMANDS SEED");
    commands = strtoul(words[1], NULL, 10);
    state = strtoul(words[2], NULL, 10);
    must(commands <= LONGEST, "so many commands");
    must(soffitfennel_factory(&card, SOFFITFENNEL_PAGES) == SOFFITFENNEL_DONE, "no card");
    must(soffitfennel_reader_new(&reader) == SOFFITFENNEL_DONE, "no reader");
    test_refusals();
    test_silence();
    must(soffitfennel_power_on(&card) == SOFFITFENNEL_DONE, "no power");
    must(transmit(create, sizeof create, answer, &size) == SOFFITFENNEL_DONE && *answer == 0x90, "no file");
    must(transmit(update, sizeof update, answer, &size) == SOFFITFENNEL_DONE && *answer == 0x90, "no first value");
    for (unsigned long i = 0; i < commands; i++) {
        rate = 2 + chance(12);
        increase_once(counts);
    }
    soffitfennel_reader_free(&reader);
    soffitfennel_free(&card);
    must(reader == NULL, "a reader that was freed");
    printf("lossy_line: %lu done, %lu resynched, %lu lost, %lu bad\n", counts[0], counts[1], counts[2], counts[3]);
    return 0;
}
