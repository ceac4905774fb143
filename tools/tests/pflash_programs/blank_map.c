/* Blanks the map of spare sectors over the flash of the example, whose words are all programmed: prints the answer, and
 * how many words are blank then, of the card's and of the map's. */
#include "card_device.h"
#include "flash.h"

#include <stdio.h>

static struct device device;

int main(void)
{
    const uint32_t zero = 0;
    int own = 0, of_map = 0;
    uint32_t word = 0;

    for (uint32_t at = 0; at < FLASH_WORDS; at++)
        device_program(&device, at, &zero, 1);
    for (uint32_t at = 0; at < FLASH_MAP_WORDS; at++)
        device_program_map(&device, at, &zero, 1);
    bool is_done = device_blank_map();
    for (uint32_t at = 0; at < FLASH_WORDS; at++)
        own += device_read(&device, at, &word) != DEVICE_DONE || word != zero;
    for (uint32_t at = 0; at < FLASH_MAP_WORDS; at++)
        of_map += device_read_map(&device, at, &word) == DEVICE_DONE && word == ~zero;
    printf("%d %d %d\n", is_done, own, of_map);
    return 0;
}
