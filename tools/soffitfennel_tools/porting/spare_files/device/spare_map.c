/* The map of the spare sectors, in a sector behind them: the flash takes its words and its number too. Put yours in its
 * place if your map lies elsewhere. */
#include "card_device.h"
#include "flash.h"

enum { MAP_SECTOR = 2 * FLASH_SECTORS + FLASH_SPARES + 1 };

_Static_assert(FLASH_MAP_WORDS <= FLASH_SECTOR_WORDS, "the map takes more than its sector");

uint32_t device_read_map(struct device *device, uint32_t at, uint32_t *word)
{
    return device_read(device, FLASH_WORDS + at, word);
}

uint32_t device_program_map(struct device *device, uint32_t at, const uint32_t *words, uint64_t count)
{
    return device_program(device, FLASH_WORDS + at, words, count);
}

bool device_blank_map(void)
{
    struct device device = {0};

    return device_erase(&device, MAP_SECTOR) == DEVICE_DONE;
}
