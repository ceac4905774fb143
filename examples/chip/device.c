/* The device of the example: its words are in RAM. Put your memory in its place.
 *
 * Each function may take only what its comment in card_device.h allows. */
#include "card_device.h"
#include "device.h"

#include <stddef.h>

enum { PAGE_WORDS = 16, PAGES = 1024, WORDS = PAGES * PAGE_WORDS, SECRET_BYTES = 8 };

/* (a section of its own: the start of the board leaves it as it is) */
__attribute__((section(".nvm"))) static volatile uint32_t words[WORDS];
static bool has_power;

uint16_t device_pages(const struct device *device)
{
    (void)device;
    return PAGES;
}

uint32_t device_read(struct device *device, uint16_t at, uint32_t *word)
{
    (void)device;
    if (!has_power)
        return DEVICE_LOST;
    *word = words[at];
    return DEVICE_DONE;
}

uint32_t device_write(struct device *device, uint16_t page, uint8_t first, const uint32_t *from, uint64_t count)
{
    (void)device;
    if (!has_power)
        return DEVICE_LOST;
    for (size_t i = 0; i < (size_t)count; i++)
        words[(size_t)page * PAGE_WORDS + first + i] = from[i];
    return DEVICE_DONE;
}

/* Each byte is compared, whatever the others are. */
uint32_t device_compare(struct device *device, uint8_t secret, const uint8_t *kept, const uint8_t *shown, bool *equal)
{
    volatile uint8_t differs = 0;

    (void)device;
    (void)secret;
    if (!has_power)
        return DEVICE_LOST;
    for (size_t i = 0; i < SECRET_BYTES; i++)
        differs |= kept[i] ^ shown[i];
    *equal = differs == 0;
    return DEVICE_DONE;
}

bool device_light(struct device *device)
{
    (void)device;
    has_power = true;
    return true;
}

void device_power_off(struct device *device)
{
    (void)device;
    has_power = false;
}

bool device_is_new(void)
{
    for (size_t i = 0; i < WORDS; i++)
        if (words[i] != 0)
            return false;
    return true;
}

void device_fill(const uint8_t *image)
{
    for (size_t i = 0; i < WORDS; i++, image += 4)
        words[i] = (uint32_t)image[0] << 24 | (uint32_t)image[1] << 16 | (uint32_t)image[2] << 8 | image[3];
}
