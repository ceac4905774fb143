/* Prints the sectors of an area, the words of the flash, those of its map, and all of them, by the header of a port. */
#include "card_device.h"

#include <stdio.h>

int main(void)
{
    printf("%d %d %d %d\n", FLASH_SECTORS, FLASH_WORDS, FLASH_MAP_WORDS, FLASH_WORDS + FLASH_MAP_WORDS);
    return 0;
}
