/* This machine as a board: the serial port is standard input and output. */
#include "board.h"

#include <stdlib.h>
#include <unistd.h>

void board_begin(void)
{
}

uint8_t board_get(void)
{
    uint8_t byte;

    if (read(STDIN_FILENO, &byte, 1) != 1)
        exit(EXIT_SUCCESS);
    return byte;
}

void board_put(uint8_t byte)
{
    if (write(STDOUT_FILENO, &byte, 1) != 1)
        exit(EXIT_FAILURE);
}

uint32_t board_stack(void)
{
    return 0;
}

int main(void)
{
    run();
    return EXIT_SUCCESS;
}
