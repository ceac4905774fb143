/* A card behind a serial port: the main loop is here, and the card has a place of its own between two calls. */
#include "board.h"
#include "card_device.h"
#include "messages.h"

#include <stddef.h>

enum { ROOM = 300 };

/* The card, and its place, which nothing else uses. */
static struct card card;
static uint64_t place[CARD_BYTES / sizeof(uint64_t)];
static bool is_taken;

void *port_place(uint32_t size, uint32_t align)
{
    if (is_taken || size > sizeof place || align > sizeof place[0])
        return NULL;
    is_taken = true;
    return place;
}

void port_place_back(void *given)
{
    (void)given;
    is_taken = false;
}

/* The outcome of a call, by its result. */
static uint8_t outcome_of(uint32_t result)
{
    if (result == CARD_ENDED)
        return DONE;
    return result == CARD_LOST || result == CARD_START_LOST ? DARK : MUTE;
}

/* Powers the card on, after power off if it is on. */
static void power_on(void)
{
    card_end(&card);
    tell(outcome_of(card_start(&card, 0)), NULL, 0);
}

/* Sends a block to the card. Without power it is mute. */
static void send_block(const uint8_t *block, uint32_t size)
{
    static uint8_t reply[REPLY_BYTES];
    uint64_t count;
    uint32_t result = card_block(&card, block, size, reply, sizeof reply, &count);

    if (result == CARD_LOST)
        card_end(&card);
    tell(outcome_of(result), reply, (uint32_t)count);
}

void run(void)
{
    static uint8_t given[ROOM];

    begin();
    for (;;) {
        uint8_t order = board_get();
        uint32_t size = take(given, sizeof given);
        if (is_done_aside(order, given))
            continue;
        if (order == ON) {
            power_on();
        } else if (order == OFF) {
            card_end(&card);
            tell(DONE, NULL, 0);
        } else if (order != BLOCK) {
            tell(MUTE, NULL, 0);
        } else if (size == 0 || size > sizeof given) {
            tell(SIZE, NULL, 0);
        } else {
            send_block(given, size);
        }
    }
}
