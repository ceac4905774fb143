/* What the factory needs of a flash, beside the three functions of the card. */
#ifndef FLASH_H
#define FLASH_H

#include <stdbool.h>

/* Notes outside of the card's blocks that a card was made: device_is_new is false from now on. */
void device_set_made(void);

/* Makes the map of spare sectors blank, before a card is made: nothing else erases it. True: all its words were read
 * back as blank. A port without spare sectors doesn't have it. */
bool device_blank_map(void);

#endif
