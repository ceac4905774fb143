/* The factory over a flash whose map of spare sectors lies elsewhere, for tests: it prints what the factory calls, once
 * with a map that fails, and then with a sound one. */
#include "card_device.h"
#include "device.h"
#include "flash.h"

#include <stdio.h>

static bool is_sound;

uint32_t device_erase(struct device *device, uint16_t sector)
{
    (void)device;
    printf("erase sector %d\n", sector);
    return DEVICE_DONE;
}

bool device_blank_map(void)
{
    puts("blank the map");
    return is_sound;
}

uint32_t card_make(uint64_t own, uint32_t pages)
{
    printf("make a card of %d pages for %d\n", (int)pages, (int)own);
    return CARD_ENDED;
}

void device_set_made(void)
{
    puts("note it");
}

int main(void)
{
    device_fill(NULL);
    is_sound = true;
    device_fill(NULL);
    return 0;
}
