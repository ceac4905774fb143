/* Random calls of the library: random COUNT SEED. Each buffer has its exact size, and a margin that no call may touch.
 * After each loss of power the card starts. A device of a card is an image, which always is the card's memory. Now and
 * then it refuses a write, and the card is made again from it. The last line has the number of calls, of device writes,
 * and of those that were refused. */
#include "soffitfennel.h"

#include <stdbool.h>
#include <stdio.h>
#include <stdlib.h>
#include <string.h>

enum { CARDS = 3, MARGIN = 32, FILL = 0xA5, MOST = 320, FIRST_DEVICE = 1000 };

/* A card, and its device if it has one. */
struct held {
    soffitfennel_card *card;
    bool is_kept, is_refused;
    uint8_t image[4 * SOFFITFENNEL_WORDS];
};

static struct held cards[CARDS];
static uint64_t state;
static unsigned long writes, refused;

/* Marsaglia's xorshift generator of 64 bits. */
static uint32_t random_below(uint32_t limit)
{
    state ^= state << 13;
    state ^= state >> 7;
    state ^= state << 17;
    return (uint32_t)(state >> 16) % limit;
}

static void must(bool holds, const char *what)
{
    if (!holds) {
        fprintf(stderr, "random: %s\n", what);
        exit(1);
    }
}

static uint8_t *new_buffer(size_t size)
{
    uint8_t *buffer = malloc(size + MARGIN);

    must(buffer != NULL, "too little memory");
    return memset(buffer, FILL, size + MARGIN);
}

static void end_buffer(uint8_t *buffer, size_t size)
{
    for (size_t i = size; i < size + MARGIN; i++)
        must(buffer[i] == FILL, "a call wrote behind its buffer");
    free(buffer);
}

/* Random bytes, which often begin as a command of the card, or are a whole block with a right check byte. */
static size_t fill(uint8_t *bytes, bool is_block)
{
    static const uint8_t instructions[] = {0xA4, 0xB0, 0xD6, 0x20, 0x24, 0x2C, 0xB2, 0xDC, 0xE0, 0xE4, 0xE2, 0x44};
    size_t size = random_below(8) == 0 ? random_below(MOST) : random_below(24);

    for (size_t i = 0; i < size; i++)
        bytes[i] = (uint8_t)(random_below(3) == 0 ? random_below(256) : random_below(4));
    uint8_t *command = is_block ? bytes + 3 : bytes;
    if (size >= 12 && random_below(4) != 0) {
        command[0] = 0;
        command[1] = instructions[random_below(sizeof instructions)];
        command[4] = (uint8_t)(size - (is_block ? 9 : 5));
    }
    if (is_block && size >= 4 && size <= 258 && random_below(8) != 0) {
        bytes[0] = 0;
        bytes[1] = (uint8_t)(random_below(2) << 6);
        bytes[2] = (uint8_t)(size - 4);
        bytes[size - 1] = 0;
        for (size_t i = 0; i + 1 < size; i++)
            bytes[size - 1] ^= bytes[i];
    }
    return size;
}

/* A command or a block, to a buffer of any size. */
static int32_t exchange(soffitfennel_card **card, bool is_block)
{
    uint8_t bytes[MOST];
    size_t count = fill(bytes, is_block), size = 9999;
    size_t room = random_below(8) == 0 ? random_below(MOST) : SOFFITFENNEL_ROOM;
    uint8_t *sent = new_buffer(count), *got = new_buffer(room);
    int32_t outcome;

    memcpy(sent, bytes, count);
    outcome = is_block ? soffitfennel_block(card, sent, count, got, room, &size)
                       : soffitfennel_command(card, sent, count, got, room, &size);
    size_t most = is_block ? SOFFITFENNEL_BLOCK : SOFFITFENNEL_COMMAND;
    must((outcome == SOFFITFENNEL_SIZE) == (count < 1 || count > most || room < SOFFITFENNEL_ROOM), "a wrong SIZE");
    must((outcome >= SOFFITFENNEL_DONE && outcome <= SOFFITFENNEL_SIZE) || outcome == SOFFITFENNEL_UNSTORED,
         "an outcome out of range");
    must(outcome == SOFFITFENNEL_DONE ? size >= 2 && size <= SOFFITFENNEL_ROOM : size == 0, "a wrong size");
    must(memcmp(sent, bytes, count) == 0, "a call wrote to what it reads");
    end_buffer(sent, count);
    end_buffer(got, room);
    return outcome;
}

/* One of a few commands that write, or that make way for one. */
static int32_t write_something(soffitfennel_card **card)
{
    static const struct {
        size_t count;
        uint8_t bytes[21];
    } commands[] = {
        {7, {0x00, 0xA4, 0x00, 0x0C, 0x02, 0x2F, 0xE2}},
        {13, {0x00, 0x20, 0x00, 0x01, 0x08, 0x31, 0x32, 0x33, 0x34, 0xFF, 0xFF, 0xFF, 0xFF}},
        {8, {0x00, 0xD6, 0x00, 0x00, 0x03, 0x11, 0x22, 0x33}},
        {21, {0x00, 0x2C, 0x00, 0x01, 0x10, 0x31, 0x32, 0x33, 0x34, 0x35, 0x36, 0x37, 0x38,
              0x31, 0x32, 0x33, 0x34, 0xFF, 0xFF, 0xFF, 0xFF}},
    };
    uint32_t chosen = random_below(4);
    uint8_t command[21], answer[SOFFITFENNEL_ROOM];
    size_t size;

    memcpy(command, commands[chosen].bytes, sizeof command);
    command[6] = chosen == 2 ? (uint8_t)random_below(256) : command[6];
    return soffitfennel_command(card, command, commands[chosen].count, answer, sizeof answer, &size);
}

/* The bytes of words in an image. */
static void put_words(uint8_t *bytes, const uint32_t *words)
{
    for (size_t i = 0; i < 4 * SOFFITFENNEL_WORDS; i++)
        bytes[i] = (uint8_t)(words[i / 4] >> (24 - 8 * (i % 4)));
}

/* The device of a card: takes a write, or refuses it with some of its words stored. */
int64_t soffitfennel_store(int32_t device, const void *bytes, size_t size, int64_t offset)
{
    must(device >= FIRST_DEVICE && device < FIRST_DEVICE + CARDS, "a wrong device");
    struct held *it = &cards[device - FIRST_DEVICE];
    must(it->is_kept && !it->is_refused, "a write to a device that gets none");
    must(size >= 4 && size % 4 == 0 && offset % 4 == 0, "a wrong size of a write");
    must(offset >= 0 && offset % 64 + size <= SOFFITFENNEL_WRITE && offset + size <= sizeof it->image,
         "a wrong offset");
    it->is_refused = random_below(512) == 0;
    for (size_t i = 0; i < size; i += 4)
        if (!it->is_refused || random_below(2) == 0)
            memcpy(it->image + offset + i, (const uint8_t *)bytes + i, 4);
    writes++;
    refused += it->is_refused;
    return it->is_refused ? (int64_t)random_below((uint32_t)size) - 1 : (int64_t)size;
}

/* Makes the card of its image. */
static void insert(struct held *it)
{
    static uint32_t words[SOFFITFENNEL_WORDS];
    int number = FIRST_DEVICE + (int)(it - cards);

    for (size_t i = 0; i < SOFFITFENNEL_WORDS; i++)
        words[i] = (uint32_t)it->image[4 * i] << 24 | (uint32_t)it->image[4 * i + 1] << 16
            | (uint32_t)it->image[4 * i + 2] << 8 | it->image[4 * i + 3];
    int32_t outcome = it->is_kept ? soffitfennel_attach(&it->card, words, SOFFITFENNEL_WORDS, number)
                                  : soffitfennel_insert(&it->card, words, SOFFITFENNEL_WORDS);
    must(outcome == SOFFITFENNEL_DONE, "no card is found again");
}

/* A bit of the card's state. */
static bool is_in(struct held *it, uint32_t bit)
{
    uint32_t bits = UINT32_MAX;

    must(soffitfennel_state(&it->card, &bits) == SOFFITFENNEL_DONE && bits < 64, "a wrong state");
    must(((bits & SOFFITFENNEL_HAS_DEVICE) != 0) == it->is_kept, "a wrong device in the state");
    must(((bits & SOFFITFENNEL_IS_UNSTORED) != 0) == it->is_refused, "a wrong refusal in the state");
    return (bits & bit) != 0;
}

/* Whether the device took all writes of a call. If not, the card gives no answer, and is made again from the image. */
static bool is_followed(struct held *it, int32_t outcome)
{
    uint16_t blocks, entries;

    must((outcome == SOFFITFENNEL_UNSTORED) == it->is_refused, "a wrong UNSTORED");
    is_in(it, 0);
    if (!it->is_refused)
        return true;
    must(soffitfennel_free_space(&it->card, &blocks, &entries) == SOFFITFENNEL_UNSTORED, "a refused card runs");
    must(soffitfennel_power_on(&it->card) == SOFFITFENNEL_UNSTORED, "a refused card starts");
    soffitfennel_free(&it->card);
    it->is_refused = false;
    insert(it);
    return false;
}

/* Makes a card of words that may have a wrong bit, or one word too few. */
static void make_wrong(uint32_t *words)
{
    soffitfennel_card *card = NULL;

    uint32_t why = 9;

    words[random_below(SOFFITFENNEL_WORDS)] ^= 1u << random_below(32);
    size_t count = SOFFITFENNEL_WORDS - random_below(2);
    int32_t outcome = soffitfennel_insert(&card, words, count);
    must(outcome == SOFFITFENNEL_DONE ? card != NULL : card == NULL, "a wrong card of words");
    must(soffitfennel_check(words, count, &why) == outcome, "words are checked otherwise than they are inserted");
    must(outcome == SOFFITFENNEL_NO_CARD ? why == 1 || why == 2 : why == 0, "a wrong reason");
    if (outcome != SOFFITFENNEL_DONE)
        must(outcome == SOFFITFENNEL_SIZE || outcome == SOFFITFENNEL_NO_CARD, "a wrong outcome of words");
    soffitfennel_free(&card);
}

/* Without a card each function says so, also with a wrong size. */
static void ask_none(soffitfennel_card **none)
{
    uint8_t bytes[SOFFITFENNEL_ROOM] = {0}, out[SOFFITFENNEL_ROOM];
    uint32_t words[1];
    uint16_t blocks, entries;
    size_t size;

    for (size_t room = SOFFITFENNEL_ROOM - 1; room <= SOFFITFENNEL_ROOM; room++) {
        must(soffitfennel_command(none, bytes, 5, out, room, &size) == SOFFITFENNEL_ABSENT, "a command to no card");
        must(soffitfennel_block(none, bytes, 5, out, room, &size) == SOFFITFENNEL_ABSENT, "a block to no card");
    }
    for (uint32_t number = 0; number <= 1; number++) {
        must(soffitfennel_cut(none, number, 0) == SOFFITFENNEL_ABSENT, "a cut of no card");
        must(soffitfennel_lose(none, number) == SOFFITFENNEL_ABSENT, "a lost block of no card");
        must(soffitfennel_garble(none, number) == SOFFITFENNEL_ABSENT, "a garbled block of no card");
    }
    must(soffitfennel_power_on(none) == SOFFITFENNEL_ABSENT, "power on of no card");
    must(soffitfennel_power_off(none) == SOFFITFENNEL_ABSENT, "power off of no card");
    must(soffitfennel_free_space(none, &blocks, &entries) == SOFFITFENNEL_ABSENT, "free space of no card");
    must(soffitfennel_words(none, words, 1, &size) == SOFFITFENNEL_ABSENT, "words of no card");
    uint32_t bits = 7;
    must(soffitfennel_state(none, &bits) == SOFFITFENNEL_ABSENT && bits == 0, "the state of no card");
    must(soffitfennel_clear_faults(none) == SOFFITFENNEL_ABSENT, "faults of no card");
    must(*none == NULL, "a card out of nothing");
}

/* Removes the card, and makes another one of its words. */
static void make_again(struct held *it)
{
    static uint8_t image[sizeof it->image];
    size_t count = random_below(4) == 0 ? random_below(SOFFITFENNEL_WORDS) : SOFFITFENNEL_WORDS, size;
    uint8_t *buffer = new_buffer(4 * count);
    uint32_t *words = (uint32_t *)buffer;
    int32_t outcome = soffitfennel_words(&it->card, words, count, &size);

    must(size == SOFFITFENNEL_WORDS, "a wrong number of words");
    must((outcome == SOFFITFENNEL_SIZE) == (count < SOFFITFENNEL_WORDS), "a wrong SIZE of words");
    if (outcome == SOFFITFENNEL_DONE) {
        put_words(image, words);
        must(!it->is_kept || memcmp(image, it->image, sizeof image) == 0, "the stored image isn't the memory");
        soffitfennel_free(&it->card);
        ask_none(&it->card);
        it->is_kept = random_below(2) == 0;
        memcpy(it->image, image, sizeof image);
        insert(it);
        make_wrong(words);
    }
    end_buffer(buffer, 4 * count);
}

static uint32_t any_number(void)
{
    return random_below(16) == 0 ? random_below(UINT32_MAX) : random_below(40);
}

/* Sets faults, and takes them back: power is off, and no update is cut. */
static void clear(struct held *it, uint32_t number)
{
    bool has_cut = is_in(it, SOFFITFENNEL_HAS_CUT), has_loss = is_in(it, SOFFITFENNEL_HAS_LOSS);

    must((soffitfennel_lose(&it->card, number) == SOFFITFENNEL_DONE || has_loss) == is_in(it, SOFFITFENNEL_HAS_LOSS),
         "a lost block in the state");
    must((soffitfennel_cut(&it->card, number, 0) == SOFFITFENNEL_DONE || has_cut) == is_in(it, SOFFITFENNEL_HAS_CUT),
         "a cut in the state");
    must(soffitfennel_clear_faults(&it->card) == SOFFITFENNEL_DONE, "faults are not cleared");
    must(!is_in(it, 0x1D), "a fault is left, or power");
}

/* Switches power on until the card starts. Only an armed cut, or a device that refuses a write, delays that. */
static void start(struct held *it)
{
    int32_t outcome;
    int tries = 0;

    do {
        outcome = soffitfennel_power_on(&it->card);
        must(is_followed(it, outcome) ? outcome == SOFFITFENNEL_DONE || outcome == SOFFITFENNEL_DARK : tries < 20,
             "a card doesn't start");
    } while (outcome != SOFFITFENNEL_DONE && ++tries < 40);
    must(outcome == SOFFITFENNEL_DONE, "a card doesn't start after a cut");
}

/* One call of a card. */
static void call(struct held *it)
{
    soffitfennel_card **card = &it->card;
    uint16_t blocks, entries;
    uint32_t number = any_number();
    bool is_number = number >= 1 && number <= SOFFITFENNEL_NUMBER;
    int32_t outcome = SOFFITFENNEL_DONE;

    switch (random_below(64)) {
    case 0:
        soffitfennel_power_off(card);
        break;
    case 1:
        start(it);
        break;
    case 2:
        outcome = soffitfennel_cut(card, number, (uint16_t)random_below(65536));
        must((outcome == SOFFITFENNEL_DONE) == is_number, "a cut");
        break;
    case 3:
        must((soffitfennel_lose(card, number) == SOFFITFENNEL_DONE) == is_number, "a lost block");
        break;
    case 4:
        must((soffitfennel_garble(card, number) == SOFFITFENNEL_DONE) == is_number, "a garbled block");
        break;
    case 5:
        outcome = soffitfennel_free_space(card, &blocks, &entries);
        must(outcome == SOFFITFENNEL_DONE || (blocks == 0 && entries == 0), "free space without power");
        break;
    case 6:
        if (random_below(32) == 0)
            make_again(it);
        break;
    case 7:
        if (random_below(4) == 0)
            clear(it, number);
        break;
    case 8 ... 47:
        outcome = write_something(card);
        break;
    default:
        outcome = exchange(card, random_below(2) == 0);
    }
    is_followed(it, outcome);
    if (outcome != SOFFITFENNEL_DONE && outcome != SOFFITFENNEL_SIZE)
        start(it);
}

/* The factory card; the first one has no device at first. */
static void begin(struct held *it)
{
    static uint32_t words[SOFFITFENNEL_WORDS];
    size_t size;

    must(soffitfennel_factory(&it->card, SOFFITFENNEL_PAGES) == SOFFITFENNEL_DONE, "no factory card");
    must(soffitfennel_words(&it->card, words, SOFFITFENNEL_WORDS, &size) == SOFFITFENNEL_DONE, "no words");
    put_words(it->image, words);
    it->is_kept = it != cards;
    insert(it);
}

int main(int argc, char **argv)
{
    unsigned long count = argc > 1 ? strtoul(argv[1], NULL, 10) : 1000;

    state = 88172645463325252u ^ (argc > 2 ? strtoull(argv[2], NULL, 10) : 0);
    for (int i = 0; i < CARDS; i++)
        begin(&cards[i]);
    for (unsigned long i = 0; i < count; i++)
        call(&cards[random_below(CARDS)]);
    for (int i = 0; i < CARDS; i++)
        soffitfennel_free(&cards[i].card);
    printf("random: %lu calls, %lu writes, %lu refused\n", count, writes, refused);
    return 0;
}
