/* The serial port of qemu's board virt for RISC-V, a 16550. */
#include "board.h"

static volatile uint8_t *const port = (volatile uint8_t *)0x10000000;
enum { DATA = 0, STATE = 5, CAME = 1 << 0, IS_EMPTY = 1 << 5 };

void board_begin(void)
{
}

uint8_t board_get(void)
{
    while ((port[STATE] & CAME) == 0) {
    }
    return port[DATA];
}

void board_put(uint8_t byte)
{
    while ((port[STATE] & IS_EMPTY) == 0) {
    }
    port[DATA] = byte;
}
