/* The second bank of flash of qemu's board virt for RISC-V: 32 MiB, two chips of 16 bits side by side. */
#include "bank.h"

static volatile uint32_t *const bank = (volatile uint32_t *)0x22000000;

uint32_t bank_get(uint32_t at)
{
    return bank[at];
}

void bank_put(uint32_t at, uint32_t word)
{
    bank[at] = word;
}
