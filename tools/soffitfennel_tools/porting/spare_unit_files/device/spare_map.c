/* The map of the spare sectors, in a sector behind them: the flash takes its words and its number too. An entry takes a
 * slot there: its number has the first unit, its mark those from the middle on. Put yours in its place if your map lies
 * elsewhere. */
#include "card_device.h"
#include "flash.h"

enum {
    MAP_SECTOR = 2 * FLASH_SECTORS + FLASH_SPARES + 1,
    ENTRY_WORDS = 20,
    NUMBER = 16,
    MARK = 18,
    MARK_PLACE = 16,
    PAIR_WORDS = FLASH_UNIT_WORDS > 2 ? FLASH_UNIT_WORDS : 2
};

_Static_assert(FLASH_MAP_WORDS <= FLASH_SECTOR_WORDS, "the map takes more than its sector");

/* Where the units of the number or of the mark begin that a word is in. */
static uint32_t units_of(uint32_t at)
{
    return FLASH_WORDS + FLASH_SLOT_WORDS * (at / ENTRY_WORDS) + (at % ENTRY_WORDS < MARK ? 0 : MARK_PLACE);
}

/* A word that reads blank has garbage behind it if the rest of its units isn't blank: it is none then. */
uint32_t device_read_map(struct device *device, uint32_t at, uint32_t *word)
{
    uint32_t rank = at % ENTRY_WORDS, seen, done;

    *word = UINT32_MAX;
    if (rank != NUMBER && rank < MARK)
        return DEVICE_DONE;
    done = device_read(device, units_of(at) + (rank < MARK ? 0 : rank - MARK), word);
    for (uint32_t k = rank < MARK ? 1 : 2; done == DEVICE_DONE && *word == UINT32_MAX && k < PAIR_WORDS; k++) {
        done = device_read(device, units_of(at) + k, &seen);
        if (done == DEVICE_DONE && seen != UINT32_MAX)
            *word = 0;
    }
    return done;
}

uint32_t device_program_map(struct device *device, uint32_t at, const uint32_t *words, uint64_t count)
{
    uint32_t whole[PAIR_WORDS];

    for (uint32_t k = 0; k < PAIR_WORDS; k++)
        whole[k] = k < count ? words[k] : UINT32_MAX;
    return device_program(device, units_of(at), whole, PAIR_WORDS);
}

bool device_blank_map(void)
{
    struct device device = {0};

    return device_erase(&device, MAP_SECTOR) == DEVICE_DONE;
}
