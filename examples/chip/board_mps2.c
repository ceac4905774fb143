/* The serial port of Arm's boards MPS2, a CMSDK UART. */
#include "board.h"

static volatile uint32_t *const port = (volatile uint32_t *)0x40004000;
enum { DATA = 0, STATE = 1, CONTROL = 2, RATE = 4, IS_FULL = 1 << 0, CAME = 1 << 1, BOTH_WAYS = 3, LEAST_RATE = 16 };

void board_begin(void)
{
    /* qemu polls the port only when its main loop wakes: a tick of the system timer wakes it, without an interrupt. */
    static volatile uint32_t *const timer = (volatile uint32_t *)0xE000E010;
    enum { RUNS = 5, STEPS = 25000 };

    port[RATE] = LEAST_RATE;
    port[CONTROL] = BOTH_WAYS;
    timer[1] = STEPS;
    timer[2] = 0;
    timer[0] = RUNS;
}

uint8_t board_get(void)
{
    while ((port[STATE] & CAME) == 0) {
    }
    return (uint8_t)port[DATA];
}

void board_put(uint8_t byte)
{
    while ((port[STATE] & IS_FULL) != 0) {
    }
    port[DATA] = byte;
}
