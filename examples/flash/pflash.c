/* A driver for a parallel flash with Intel's commands, which it names by its common flash interface (CFI, command set
 * 1). Two chips of 16 bits are side by side, so each command goes to both halves of a word, and both report a status.
 *
 * The sectors of the card are the first of the bank, and the factory's note has the one behind them. A chip whose
 * sectors have another size than FLASH_SECTOR_WORDS is left alone. */
#include "bank.h"
#include "card_device.h"
#include "device.h"
#include "flash.h"

#include <stddef.h>

#define BOTH(number) ((uint32_t)(number) << 16 | (uint32_t)(number))

enum {
    SECTOR_WORDS = FLASH_SECTOR_WORDS,
    WITNESS_SECTOR = 2 * FLASH_SECTORS,
    /* (spare sectors have one more, for their map) */
    NOTE_SECTOR = WITNESS_SECTOR + 1 + FLASH_SPARES + (FLASH_SPARES > 0),
    SECTORS = NOTE_SECTOR + 1
};
_Static_assert(FLASH_MAP_WORDS <= FLASH_SECTOR_WORDS, "the map of spare sectors takes one sector");
enum { PROGRAM = 0x40, ERASE = 0x20, LOCK = 0x60, CONFIRM = 0xD0, CLEAR = 0x50, QUERY = 0x98, ARRAY = 0xFF };
/* the status: ready, and what went wrong: erase, program, voltage, lock */
enum { READY = 0x80, FAILED = 0x3A };
/* the places of the interface, and what is there */
enum { QUERY_AT = 0x55, NAME = 0x10, COMMANDS = 0x13, REGION = 0x2D, INTEL = 1 };
/* reads of the status: more than the longest erase takes */
#ifndef POLLS
#define POLLS 100000000
#endif

static const uint32_t blank = 0xFFFFFFFF, made = 0x4D414445;
static enum { UNKNOWN, FITS, STRANGE } chip;
/* a call ended before the chip was ready: what is read would be its status */
static bool is_busy;

static uint32_t start_of(uint32_t sector)
{
    return sector * SECTOR_WORDS;
}

/* The place of a word of the card in the bank. */
static uint32_t place_of(uint32_t at)
{
    if (at < FLASH_AREA_WORDS)
        return at;
    at -= FLASH_AREA_WORDS;
    if (at < FLASH_AREA_WORDS)
        return start_of(FLASH_SECTORS) + at;
    return start_of(WITNESS_SECTOR) + at - FLASH_AREA_WORDS;
}

/* Waits until both chips are ready. Returns true if nothing went wrong. */
static bool has_done(void)
{
    uint32_t state = 0;

    for (uint32_t polls = 0; polls < POLLS && (state & BOTH(READY)) != BOTH(READY); polls++)
        state = bank_get(0);
    is_busy = (state & BOTH(READY)) != BOTH(READY);
    return !is_busy && (state & BOTH(FAILED)) == 0;
}

/* Lets the chips forget what went wrong, and show their words. */
static void show_words(void)
{
    if (!is_busy) {
        bank_put(0, BOTH(CLEAR));
        bank_put(0, BOTH(ARRAY));
    }
}

/* A number of the interface, which both chips report alike. */
static uint32_t reported(uint32_t at, uint32_t bytes)
{
    uint32_t number = 0;

    for (uint32_t i = 0; i < bytes; i++)
        number |= (bank_get(at + i) & 0xFF) << 8 * i;
    return number;
}

/* Asks the chips what they are: the driver takes one kind. */
static bool is_known(void)
{
    if (chip == UNKNOWN) {
        bank_put(QUERY_AT, BOTH(QUERY));
        bool has_name = bank_get(NAME) == BOTH('Q') && bank_get(NAME + 1) == BOTH('R')
            && bank_get(NAME + 2) == BOTH('Y');
        uint32_t sectors = reported(REGION, 2) + 1, bytes = reported(REGION + 2, 2) * 256 * 2;
        bool is_so = has_name && reported(COMMANDS, 2) == INTEL && sectors >= SECTORS && bytes == 4 * SECTOR_WORDS;
        bank_put(0, BOTH(ARRAY));
        chip = is_so ? FITS : STRANGE;
    }
    return chip == FITS;
}

/* Returns true if the chips take a command, and show their words. */
static bool is_ready(void)
{
    if (is_busy) {
        has_done();
        show_words();
    }
    return !is_busy && is_known();
}

/* A chip has all its sectors locked after power-on. */
static bool unlock(uint32_t place)
{
    bank_put(place, BOTH(LOCK));
    bank_put(place, BOTH(CONFIRM));
    return has_done();
}

static bool program_word(uint32_t place, uint32_t word)
{
    bank_put(place, BOTH(PROGRAM));
    bank_put(place, word);
    return has_done();
}

static bool erase_sector(uint32_t sector)
{
    uint32_t start = start_of(sector);
    bool is_done = unlock(start);

    if (is_done) {
        bank_put(start, BOTH(ERASE));
        bank_put(start, BOTH(CONFIRM));
        is_done = has_done();
    }
    show_words();
    for (uint32_t i = 0; i < SECTOR_WORDS && is_done; i++)
        is_done = bank_get(start + i) == blank;
    return is_done;
}

uint32_t device_read(struct device *device, uint32_t at, uint32_t *word)
{
    (void)device;
    if (!is_ready())
        return DEVICE_FAULT;
    *word = bank_get(place_of(at));
    return DEVICE_DONE;
}

uint32_t device_program(struct device *device, uint32_t at, const uint32_t *words, uint64_t count)
{
    bool is_done = is_ready();

    (void)device;
    if (!is_done)
        return DEVICE_FAULT;
    for (uint32_t i = 0; i < (uint32_t)count && is_done; i++) {
        uint32_t place = place_of(at + i);
        bool is_first = i == 0 || place % SECTOR_WORDS == 0;
        is_done = (!is_first || unlock(place)) && program_word(place, words[i]);
    }
    show_words();
    for (uint32_t i = 0; i < (uint32_t)count && is_done; i++)
        is_done = bank_get(place_of(at + i)) == words[i];
    return is_done ? DEVICE_DONE : DEVICE_FAULT;
}

uint32_t device_erase(struct device *device, uint16_t sector)
{
    (void)device;
    return is_ready() && erase_sector(sector) ? DEVICE_DONE : DEVICE_FAULT;
}

bool device_is_new(void)
{
    return is_ready() && bank_get(start_of(NOTE_SECTOR)) != made;
}

/* (a note that is torn isn't the word: the sector is erased before it is written again) */
void device_set_made(void)
{
    uint32_t place = start_of(NOTE_SECTOR);

    if (is_ready() && erase_sector(NOTE_SECTOR) && unlock(place))
        program_word(place, made);
    show_words();
}
