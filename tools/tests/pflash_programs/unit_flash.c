/* A flash in RAM that programs whole units, each at most once between two erases. What else it is asked for ends the
 * program. */
#include "card_device.h"
#include "device.h"
#include "flash.h"

#include <stddef.h>

enum { BLANK = -1 };
static const uint32_t made = 0x4D414445;

__attribute__((section(".nvm"))) static volatile uint32_t words[FLASH_WORDS + FLASH_MAP_WORDS], note;
__attribute__((section(".nvm"))) static volatile uint8_t programs[(FLASH_WORDS + FLASH_MAP_WORDS) / FLASH_UNIT_WORDS];

static void must(bool is_so)
{
    if (!is_so)
        __builtin_trap();
}

uint32_t device_read(struct device *device, uint32_t at, uint32_t *word)
{
    (void)device;
    must(at < FLASH_WORDS + FLASH_MAP_WORDS);
    *word = words[at];
    return DEVICE_DONE;
}

uint32_t device_program(struct device *device, uint32_t at, const uint32_t *from, uint64_t count)
{
    (void)device;
    must(at % FLASH_UNIT_WORDS == 0 && count % FLASH_UNIT_WORDS == 0);
    must(at + count <= FLASH_WORDS + FLASH_MAP_WORDS);
    for (size_t i = 0; i < (size_t)count; i++) {
        must(words[at + i] == (uint32_t)BLANK);
        if (i % FLASH_UNIT_WORDS == 0)
            must(programs[(at + i) / FLASH_UNIT_WORDS]++ == 0);
        words[at + i] = from[i];
    }
    return DEVICE_DONE;
}

/* Where a sector begins. That of the map of spare sectors, if there are any, is the last. */
static size_t start_of(size_t sector)
{
    size_t area = sector / FLASH_SECTORS * FLASH_AREA_WORDS, end = 2 * FLASH_SECTORS + FLASH_SPARES + 1;

    if (sector >= end)
        return sector == end ? FLASH_WORDS : FLASH_WORDS + FLASH_MAP_WORDS;
    return area + sector % FLASH_SECTORS * FLASH_SECTOR_WORDS;
}

uint32_t device_erase(struct device *device, uint16_t sector)
{
    size_t start = start_of(sector), end = start_of((size_t)sector + 1);

    (void)device;
    for (size_t i = start; i < end; i++) {
        words[i] = (uint32_t)BLANK;
        programs[i / FLASH_UNIT_WORDS] = 0;
    }
    return DEVICE_DONE;
}

bool device_is_new(void)
{
    return note != made;
}

void device_set_made(void)
{
    note = made;
}
