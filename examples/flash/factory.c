/* The making of a card: the words of an image go to a new flash. If it is interrupted the next start makes it anew. */
#include "card_device.h"
#include "device.h"
#include "flash.h"

#include <stddef.h>

enum { IMAGE_PAGES = 1024, WORD_BYTES = 4 };

static const uint8_t *source;

/* Each word of the image has its most significant byte first. */
void port_page(uint16_t page, uint32_t *words, uint64_t count)
{
    const uint8_t *from = source + (size_t)page * (size_t)count * WORD_BYTES;

    for (size_t i = 0; i < (size_t)count; i++, from += WORD_BYTES)
        words[i] = (uint32_t)from[0] << 24 | (uint32_t)from[1] << 16 | (uint32_t)from[2] << 8 | from[3];
}

/* (without spare sectors there is no map) */
void device_fill(const uint8_t *image)
{
    source = image;
    if ((FLASH_SPARES == 0 || device_blank_map()) && card_make(0, IMAGE_PAGES) == CARD_ENDED)
        device_set_made();
}
