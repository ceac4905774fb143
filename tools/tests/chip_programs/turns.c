/* Calls of the card out of turn: each has its number and changes nothing. It prints what isn't so. */
#include "device.c"

#include <stdio.h>
#include <string.h>

extern const uint8_t factory_image[];

static struct card card;
static uint64_t place[CARD_BYTES / sizeof(uint64_t)];
static bool is_taken, is_none;
static uint32_t gives, backs, passed, failed;

void *port_place(uint32_t size, uint32_t align)
{
    gives++;
    if (is_taken || is_none || size != CARD_BYTES || align != sizeof place[0])
        return NULL;
    is_taken = true;
    return place;
}

void port_place_back(void *given)
{
    backs++;
    is_taken = given != place;
}

static void holds(bool is_so, const char *what)
{
    passed += is_so ? 1 : 0;
    failed += is_so ? 0 : 1;
    if (!is_so)
        printf("broken: %s\n", what);
}

/* What a call may not change: the words, the card and its place. */
struct state {
    uint32_t words[WORDS];
    struct card card;
    uint64_t place[CARD_BYTES / sizeof(uint64_t)];
    bool is_taken, has_power;
};

static struct state before, after;

static void note(struct state *state)
{
    memset(state, 0, sizeof *state);
    for (size_t i = 0; i < WORDS; i++)
        state->words[i] = words[i];
    state->card = card;
    memcpy(state->place, place, sizeof place);
    state->is_taken = is_taken;
    state->has_power = has_power;
}

static void begin(void)
{
    note(&before);
}

static bool is_same(void)
{
    note(&after);
    return memcmp(&before, &after, sizeof before) == 0;
}

static const uint8_t select_mf[] = {0x00, 0x00, 0x07, 0x00, 0xA4, 0x00, 0x0C, 0x02, 0x3F, 0x00, 0x92};
static uint8_t reply[REPLY_BYTES];
static uint64_t size;

/* A block; 0xEE is nowhere in its reply. */
static uint32_t block(uint64_t room)
{
    memset(reply, 0xEE, sizeof reply);
    size = 99;
    return card_block(&card, select_mf, sizeof select_mf, reply, room, &size);
}

static bool is_untouched(void)
{
    for (size_t i = 0; i < sizeof reply; i++)
        if (reply[i] != 0xEE)
            return false;
    return size == 0;
}

static void try_no_card(const char *when)
{
    begin();
    holds(block(sizeof reply) == CARD_OUT_OF_TURN && is_untouched() && is_same(), when);
    holds(card_end(&card) == CARD_OUT_OF_TURN && is_same(), when);
}

static void try_card(void)
{
    uint8_t first[REPLY_BYTES];

    holds(card_start(&card, 0) == CARD_ENDED && is_taken && gives == 2 && backs == 0, "a card starts");
    begin();
    holds(card_start(&card, 0) == CARD_OUT_OF_TURN && is_same() && gives == 2, "a second start is out of turn");
    holds(block(sizeof reply - 1) == CARD_NO_ROOM && is_untouched() && is_same(), "a short buffer changes nothing");
    holds(block(0) == CARD_NO_ROOM && is_untouched() && is_same(), "no buffer changes nothing");
    holds(block(sizeof reply) == CARD_ENDED && size == 6 && reply[3] == 0x90, "then the card answers");
    memcpy(first, reply, sizeof first);
    holds(reply[size] == 0xEE, "the rest of the buffer is as it was");
    holds(card_block(&card, NULL, 0, reply, sizeof reply, &size) == CARD_ENDED && size > 0, "a block of no bytes");
    holds(card_end(&card) == CARD_ENDED && !is_taken && backs == 1 && !has_power, "a card ends");
    holds(card_start(&card, 0) == CARD_ENDED && block(sizeof reply) == CARD_ENDED, "it starts again");
    holds(memcmp(first, reply, sizeof first) == 0, "with a fresh link");
    device_power_off(NULL);
    holds(block(sizeof reply) == CARD_ENDED, "a block that reads nothing needs no power");
    holds(card_end(&card) == CARD_ENDED, "it ends");
}

static void try_no_power(void)
{
    uint32_t word = words[0];

    words[0] = 7;
    holds(card_start(&card, 0) == CARD_DAMAGED && !is_taken, "no valid card image");
    words[0] = word;
}

int main(void)
{
    device_fill(factory_image);
    try_no_card("before a start");
    is_none = true;
    holds(card_start(&card, 0) == CARD_NO_PLACE && gives == 1 && backs == 0, "there is no place");
    is_none = false;
    try_no_card("behind a start without a place");
    try_card();
    try_no_card("behind the end");
    try_no_power();
    try_no_card("behind a start that failed");
    printf("turns: %u passed, %u failed\n", passed, failed);
    return failed != 0;
}
