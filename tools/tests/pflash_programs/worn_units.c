/* The flash of unit_flash.c with two worn sectors: the first one, and the witness. Their erase leaves garbage. */
#define device_erase erase_sound
#include "unit_flash.c"
#undef device_erase

uint32_t device_erase(struct device *device, uint16_t sector)
{
    uint32_t done = erase_sound(device, sector);

    if (sector != 0 && sector != 2 * FLASH_SECTORS)
        return done;
    words[start_of(sector)] = 0;
    return DEVICE_FAULT;
}
