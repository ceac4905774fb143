/* A parallel flash whose sectors wear out, for tests: their bits in a word behind the note say which. The card takes
 * its spare sectors slowly, so that a kill meets it there. */
#define device_erase erase_sound
#define device_program program_fast
#include "pflash.c"
#undef device_erase
#undef device_program

enum { WORN_SECTOR = NOTE_SECTOR + 1, GARBAGE_WORDS = 8, PAUSE = 10000000 };

static void wait(void)
{
    for (volatile uint32_t i = 0; i < PAUSE; i++)
        continue;
}

static bool is_worn(uint32_t sector)
{
    return is_ready() && (bank_get(start_of(WORN_SECTOR)) >> sector & 1) != 0;
}

uint32_t device_program(struct device *device, uint32_t at, const uint32_t *words, uint64_t count)
{
    if (at < FLASH_WORDS)
        return program_fast(device, at, words, count);
    wait();
    return program_fast(device, at, words, count);
}

/* The erase of a worn sector leaves garbage. */
uint32_t device_erase(struct device *device, uint16_t sector)
{
    static const uint32_t garbage[GARBAGE_WORDS];

    if (sector > WITNESS_SECTOR)
        wait();
    if (!is_worn(sector))
        return erase_sound(device, sector);
    program_fast(device, start_of(sector), garbage, GARBAGE_WORDS);
    return DEVICE_FAULT;
}
