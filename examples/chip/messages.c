/* The messages between a card and the serial port of its board. */
#include "messages.h"
#include "board.h"
#include "device.h"

#include <stddef.h>

extern const uint8_t factory_image[];

/* Carries out an order of a test, writes the reply, and returns its size; -1 for an unknown order. */
__attribute__((weak)) int32_t test_order(uint8_t order, const uint8_t *given, uint8_t *reply)
{
    (void)order;
    (void)given;
    (void)reply;
    return -1;
}

void tell(uint8_t outcome, const uint8_t *reply, uint32_t size)
{
    board_put(outcome);
    board_put((uint8_t)(size >> 8));
    board_put((uint8_t)size);
    for (uint32_t i = 0; i < size; i++)
        board_put(reply[i]);
}

uint32_t take(uint8_t *given, uint32_t room)
{
    uint32_t size = (uint32_t)board_get() << 8;

    size |= board_get();
    for (uint32_t i = 0; i < size; i++) {
        uint8_t byte = board_get();
        if (i < room)
            given[i] = byte;
    }
    return size;
}

/* The bytes of heap, of which there is none, and of stack in use. */
static void tell_use(void)
{
    uint32_t stack = board_stack();
    uint8_t use[8] = {0};

    for (int i = 0; i < 4; i++)
        use[4 + i] = (uint8_t)(stack >> (24 - 8 * i));
    tell(DONE, use, sizeof use);
}

bool is_done_aside(uint8_t order, const uint8_t *given)
{
    uint8_t reply[16];
    int32_t size = test_order(order, given, reply);

    if (size >= 0)
        tell(DONE, reply, (uint32_t)size);
    else if (order == USE)
        tell_use();
    else if (order == FREE)
        tell(MUTE, NULL, 0);
    return size >= 0 || order == USE || order == FREE;
}

void begin(void)
{
    board_begin();
    if (device_is_new())
        device_fill(factory_image);
}
