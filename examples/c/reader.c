/* Reads the factory card's ICCID through a reader's end. In a reader, exchange_blocks belongs to the serial port. */
#include "soffitfennel.h"
#include <stdio.h>

/* A card may send empty blocks without end, so that a caller counts them. */
enum { MOST_BLOCKS = 500 };

static const uint8_t select_iccid[] = {0x00, 0xA4, 0x00, 0x0C, 0x02, 0x2F, 0xE2};
static const uint8_t read_binary[] = {0x00, 0xB0, 0x00, 0x00, 0x0A};

/* Sends a block, and returns the size of the card's block; 0 if none comes within the block waiting time. */
static size_t exchange_blocks(soffitfennel_card **card, const uint8_t *block, size_t count, uint8_t *received)
{
    size_t size;

    soffitfennel_block(card, block, count, received, SOFFITFENNEL_ROOM, &size);
    return size;
}

/* Sends a command, and returns its outcome. After DONE the answer is in the buffer. */
static int32_t transmit(soffitfennel_reader **reader, soffitfennel_card **card, const uint8_t *command, size_t count,
                        uint8_t buffer[SOFFITFENNEL_ROOM], size_t *size)
{
    uint8_t received[SOFFITFENNEL_ROOM];
    int32_t outcome = soffitfennel_reader_command(reader, command, count, buffer, SOFFITFENNEL_ROOM, size);

    for (int blocks = 0; outcome == SOFFITFENNEL_SEND && blocks < MOST_BLOCKS; blocks++) {
        size_t got = exchange_blocks(card, buffer, *size, received);
        outcome = soffitfennel_reader_receive(reader, received, got, buffer, SOFFITFENNEL_ROOM, size);
    }
    return outcome;
}

static void show(soffitfennel_reader **reader, soffitfennel_card **card, const uint8_t *command, size_t count)
{
    uint8_t answer[SOFFITFENNEL_ROOM];
    size_t size;
    int32_t outcome = transmit(reader, card, command, count, answer, &size);

    if (outcome != SOFFITFENNEL_DONE) {
        fprintf(stderr, "%s\n", soffitfennel_outcome_name(outcome));
        return;
    }
    for (size_t i = 0; i < size; i++)
        printf("%02X", answer[i]);
    printf("\n");
}

int main(void)
{
    soffitfennel_card *card = NULL;
    soffitfennel_reader *reader = NULL;

    if (soffitfennel_factory(&card, SOFFITFENNEL_PAGES) != SOFFITFENNEL_DONE)
        return 1;
    if (soffitfennel_reader_new(&reader) != SOFFITFENNEL_DONE)
        return 1;
    soffitfennel_power_on(&card);
    show(&reader, &card, select_iccid, sizeof select_iccid);
    show(&reader, &card, read_binary, sizeof read_binary);
    soffitfennel_reader_free(&reader);
    soffitfennel_free(&card);
    return 0;
}
