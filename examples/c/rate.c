/* Measures the library: commands through both ends of the link, and blocks to the card's end, in a second. */
#include "soffitfennel.h"

#include <stdio.h>
#include <time.h>

enum { COUNT = 1000000 };

static const uint8_t select_iccid[] = {0x00, 0xA4, 0x00, 0x0C, 0x02, 0x2F, 0xE2};
static const uint8_t read_binary[] = {0x00, 0xB0, 0x00, 0x00, 0x0A};
/* READ BINARY of the same file by its short identifier, as a block of each number */
static const uint8_t blocks[2][9] = {
    {0x00, 0x00, 0x05, 0x00, 0xB0, 0x82, 0x00, 0x0A, 0x3D},
    {0x00, 0x40, 0x05, 0x00, 0xB0, 0x82, 0x00, 0x0A, 0x7D},
};

static double seconds(void)
{
    struct timespec now;

    clock_gettime(CLOCK_MONOTONIC, &now);
    return (double)now.tv_sec + 1e-9 * (double)now.tv_nsec;
}

int main(void)
{
    uint8_t answer[SOFFITFENNEL_ROOM];
    soffitfennel_card *card = NULL;
    size_t size;
    double begin;

    if (soffitfennel_factory(&card, SOFFITFENNEL_PAGES) != SOFFITFENNEL_DONE)
        return 1;
    soffitfennel_power_on(&card);
    soffitfennel_command(&card, select_iccid, sizeof select_iccid, answer, sizeof answer, &size);
    begin = seconds();
    for (int i = 0; i < COUNT; i++)
        soffitfennel_command(&card, read_binary, sizeof read_binary, answer, sizeof answer, &size);
    printf("%.0f commands a second, %zu bytes each\n", COUNT / (seconds() - begin), size);
    soffitfennel_power_on(&card);
    begin = seconds();
    for (int i = 0; i < COUNT; i++)
        soffitfennel_block(&card, blocks[i % 2], sizeof blocks[0], answer, sizeof answer, &size);
    printf("%.0f blocks a second, %zu bytes each\n", COUNT / (seconds() - begin), size);
    soffitfennel_free(&card);
    return 0;
}
