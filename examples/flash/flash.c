/* The flash of the example: it is in RAM, and behaves as flash does. Put yours in its place.
 *
 * Each function may take only what its comment in card_device.h allows. */
#include "card_device.h"
#include "device.h"
#include "flash.h"

#include <stddef.h>

enum { BLANK = -1 };
static const uint32_t made = 0x4D414445;

/* (a section of its own: the start of the board leaves it as it is) */
__attribute__((section(".nvm"))) static volatile uint32_t words[FLASH_WORDS + FLASH_MAP_WORDS], note;

uint32_t device_read(struct device *device, uint32_t at, uint32_t *word)
{
    (void)device;
    *word = words[at];
    return DEVICE_DONE;
}

/* A program only clears bits. */
uint32_t device_program(struct device *device, uint32_t at, const uint32_t *from, uint64_t count)
{
    bool is_there = true;

    (void)device;
    for (size_t i = 0; i < (size_t)count; i++) {
        words[at + i] &= from[i];
        is_there &= words[at + i] == from[i];
    }
    return is_there ? DEVICE_DONE : DEVICE_FAULT;
}

/* Where a sector begins. That of the map of spare sectors, if there are any, is the last. */
static size_t start_of(size_t sector)
{
    size_t area = sector / FLASH_SECTORS * FLASH_AREA_WORDS, map = 2 * FLASH_SECTORS + FLASH_SPARES + 1;

    if (sector >= map)
        return sector == map ? FLASH_WORDS : FLASH_WORDS + FLASH_MAP_WORDS;
    return area + sector % FLASH_SECTORS * FLASH_SECTOR_WORDS;
}

uint32_t device_erase(struct device *device, uint16_t sector)
{
    size_t start = start_of(sector), end = start_of((size_t)sector + 1);
    bool is_blank = true;

    (void)device;
    for (size_t i = start; i < end; i++) {
        words[i] = (uint32_t)BLANK;
        is_blank &= words[i] == (uint32_t)BLANK;
    }
    return is_blank ? DEVICE_DONE : DEVICE_FAULT;
}

bool device_is_new(void)
{
    return note != made;
}

void device_set_made(void)
{
    note = made;
}
