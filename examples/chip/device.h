/* What the factory does with a device: it puts the words of a card into a new one. */
#ifndef DEVICE_H
#define DEVICE_H

#include <stdbool.h>
#include <stdint.h>

/* Whether the memory is as it was made: empty. */
bool device_is_new(void);

/* Puts a memory image into the words, each with its most significant byte first. */
void device_fill(const uint8_t *image);

#endif
