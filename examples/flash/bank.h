/* The bus of a flash: words of 32 bits, from 0 on. What a chip answers depends on the commands that it got. */
#ifndef BANK_H
#define BANK_H

#include <stdint.h>

uint32_t bank_get(uint32_t at);
void bank_put(uint32_t at, uint32_t word);

#endif
