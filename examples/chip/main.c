/* A card behind a serial port: card_serve has the main loop. */
#include "board.h"
#include "card_device.h"
#include "messages.h"

#include <stddef.h>

/* An order behind which the session ended: it is still to be carried out. */
static uint8_t next;
static bool has_next;
/* Whether power-on has its outcome. */
static bool is_on;

uint64_t port_receive(uint8_t *message, uint64_t room)
{
    if (!is_on)
        tell(DONE, NULL, 0);
    is_on = true;
    for (;;) {
        uint8_t order = board_get();
        uint32_t size = take(message, (uint32_t)room);
        if (is_done_aside(order, message))
            continue;
        if (order == BLOCK && size > 0 && size <= room)
            return size;
        if (order != BLOCK) {
            next = order;
            has_next = true;
            return 0;
        }
        tell(SIZE, NULL, 0);
    }
}

void port_send(const uint8_t *message, uint64_t size)
{
    tell(DONE, message, (uint32_t)size);
}

/* Powers the card on, and serves it until power goes. */
static void serve(void)
{
    uint32_t result;

    is_on = false;
    result = card_serve(0, UINT32_MAX);
    if (result == CARD_LOST || result == CARD_START_LOST)
        tell(DARK, NULL, 0);
    else if (result != CARD_ENDED)
        tell(MUTE, NULL, 0);
}

void run(void)
{
    uint8_t given[16];

    begin();
    for (;;) {
        uint8_t order = next;
        if (!has_next) {
            order = board_get();
            take(given, sizeof given);
        }
        has_next = false;
        if (order == ON)
            serve();
        else if (order == OFF)
            tell(DONE, NULL, 0);
        else if (!is_done_aside(order, given))
            tell(MUTE, NULL, 0);
    }
}
