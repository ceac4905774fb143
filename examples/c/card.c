/* Makes the factory card, and reads its ICCID. */
#include "soffitfennel.h"
#include <stdio.h>

static const uint8_t select_iccid[] = {0x00, 0xA4, 0x00, 0x0C, 0x02, 0x2F, 0xE2};
static const uint8_t read_binary[] = {0x00, 0xB0, 0x00, 0x00, 0x0A};

static int show(soffitfennel_card **card, const uint8_t *command, size_t count)
{
    uint8_t answer[SOFFITFENNEL_ROOM];
    size_t size;
    int32_t outcome = soffitfennel_command(card, command, count, answer, sizeof answer, &size);

    if (outcome != SOFFITFENNEL_DONE) {
        fprintf(stderr, "%s\n", soffitfennel_outcome_name(outcome));
        return 1;
    }
    for (size_t i = 0; i < size; i++)
        printf("%02X", answer[i]);
    printf("\n");
    return 0;
}

int main(void)
{
    soffitfennel_card *card = NULL;

    if (soffitfennel_factory(&card, SOFFITFENNEL_PAGES) != SOFFITFENNEL_DONE)
        return 1;
    soffitfennel_power_on(&card);
    show(&card, select_iccid, sizeof select_iccid);
    show(&card, read_binary, sizeof read_binary);
    soffitfennel_free(&card);
    return 0;
}
