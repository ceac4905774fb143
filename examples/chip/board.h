/* What the programs here need of a board: a serial port and the depth of the stack. */
#ifndef BOARD_H
#define BOARD_H

#include <stdint.h>

void board_begin(void);
uint8_t board_get(void);
void board_put(uint8_t byte);

/* The bytes of stack that were in use at most, or 0 where nothing measures them. */
uint32_t board_stack(void);

/* Behind the start of the board. */
void run(void);

#endif
