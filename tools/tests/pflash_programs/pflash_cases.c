/* Cases of the driver of examples/flash over chips in which something goes wrong. Prints each that fails. */
#include "bank.h"
#include "bank_model.h"
#include "card_device.h"
#include "device.h"
#include "flash.h"

#include <stdio.h>
#include <string.h>

/* (the driver is a part of this program, so that a case can begin as power-on does) */
#include "pflash.c"

enum { RUN = 20, STRANGE_CHIPS = 6 };
static struct device device;
static uint32_t passed, failed;
static uint32_t run[RUN];

static void holds(bool is_so, const char *what)
{
    passed += is_so ? 1 : 0;
    failed += is_so ? 0 : 1;
    if (!is_so)
        printf("broken: %s\n", what);
}

static void restart(void)
{
    model_faults = (struct model_faults){.fails_at = -1, .differs_at = -1};
    model_interface = (struct model_interface){{'Q', 'R', 'Y'}, 1, 128, 2 * MODEL_SECTOR_WORDS};
    model_reset();
    model_changes = model_strange = 0;
    chip = UNKNOWN;
    is_busy = false;
}

/* New chips, whose words are all another number, so that what changes is seen. */
static void begin(uint32_t word)
{
    restart();
    for (uint32_t i = 0; i < MODEL_WORDS; i++)
        model_words[i] = word;
    for (uint32_t i = 0; i < RUN; i++)
        run[i] = (i + 1) * 2654435761u;
}

static uint32_t sector_of(uint32_t at)
{
    return place_of(at) / MODEL_SECTOR_WORDS;
}

/* Whether all words are this one, but for those of a run and of sectors that are blank. */
static bool are_others(uint32_t word, uint32_t at, uint32_t size, uint32_t first_blank, uint32_t blanks)
{
    for (uint32_t i = 0; i < MODEL_WORDS; i++) {
        uint32_t sector = i / MODEL_SECTOR_WORDS;
        bool is_in_run = i >= at && i < at + size, is_blank = sector >= first_blank && sector < first_blank + blanks;
        if (!is_in_run && model_words[i] != (is_blank ? 0xFFFFFFFF : word))
            return false;
    }
    return true;
}

static bool reads(uint32_t at, uint32_t wanted)
{
    uint32_t word = ~wanted;

    return device_read(&device, at, &word) == DEVICE_DONE && word == wanted;
}

static bool programs(uint32_t at, uint32_t count)
{
    return device_program(&device, at, run, count) == DEVICE_DONE;
}

static bool erases(uint32_t sector)
{
    return device_erase(&device, (uint16_t)sector) == DEVICE_DONE;
}

static void try_places(void)
{
    static const uint32_t ends[] = {0, FLASH_AREA_WORDS, 2 * FLASH_AREA_WORDS, FLASH_WORDS};

    for (uint32_t block = 0; block < FLASH_BLOCKS; block++) {
        begin(blank);
        uint32_t at = ends[block + 1] - FLASH_WITNESS_WORDS;
        holds(programs(at, 2) && (at == ends[block] || programs(ends[block], 1)), "program: at the ends of a block");
        holds(reads(at, run[0]) && reads(at + 1, run[1]), "read: the words that were programmed");
        holds(sector_of(ends[block]) == sector_of(at + 1), "a block begins in a sector of its own");
        holds(block == 0 || sector_of(ends[block]) > sector_of(ends[block] - 1), "two blocks share no sector");
    }
    begin(blank);
    holds(programs(FLASH_AREA_WORDS - 10, RUN), "program: a run in two blocks");
    holds(memcmp(model_words + FLASH_AREA_WORDS - 10, run, 40) == 0, "program: its words in the first block");
    uint32_t second = sector_of(FLASH_AREA_WORDS) * MODEL_SECTOR_WORDS;
    holds(memcmp(model_words + second, run + 10, 40) == 0, "program: its words in the second block");
}

static void try_changes(void)
{
    begin(blank);
    holds(programs(100, RUN) && memcmp(model_words + 100, run, sizeof run) == 0, "program: the words");
    holds(are_others(blank, 100, RUN, 0, 0), "program: no other word");
    holds(model_changes == RUN, "program: each word once");
    for (uint32_t block = 0; block < FLASH_BLOCKS; block++) {
        begin(0x12345678);
        uint32_t sector = block * FLASH_SECTORS;
        holds(erases(sector) && are_others(0x12345678, 0, 0, sector, 1), "erase: that sector alone");
        holds(model_changes == 1 && reads(block * FLASH_AREA_WORDS, blank), "erase: once, where the card reads");
    }
    holds(model_strange == 0, "no command that the chips don't know, and none while they are busy");
}

/* A difference without a word in the status. */
static void try_read_back(void)
{
    for (uint32_t bit = 0; bit < 32; bit += 5) {
        begin(blank);
        model_faults.differs_at = (int32_t)(bit % RUN);
        model_faults.difference = (uint32_t)1 << bit;
        holds(!programs(100, RUN), "program: each word is read back");
        begin(0);
        model_faults.differs_at = 0;
        model_faults.difference = (uint32_t)1 << bit;
        model_faults.differs_in = bit * (MODEL_SECTOR_WORDS - 1) / 30;
        holds(!erases(1), "erase: each word is read back");
    }
    begin(0);
    holds(!programs(100, RUN), "program: a word that can't be there");
}

/* What the status reports, of either chip, though the words are there. */
static void try_status(void)
{
    static const uint32_t bits[] = {0x20, 0x10, 0x08, 0x02};

    for (uint32_t i = 0; i < 8; i++) {
        for (uint32_t at = 0; at < 3; at++) {
            begin(blank);
            model_faults.fails_at = (int32_t)at;
            model_faults.failure = bits[i / 2] << 16 * (i % 2);
            model_faults.is_carried_out = true;
            holds(!programs(100, 3), "program: the status of both chips, behind each word");
            holds(reads(99, blank), "program: words are shown behind a failure");
            holds(programs(200, 3), "program: a failure is over at the next call");
        }
        begin(blank);
        model_faults.fails_at = 0;
        model_faults.failure = bits[i / 2] << 16 * (i % 2);
        model_faults.is_carried_out = true;
        holds(!erases(0), "erase: the status of both chips");
        holds(reads(0, blank) && erases(0), "erase: a failure is over at the next call");
    }
}

static void try_waiting(void)
{
    for (int32_t later = 0; later < 8; later += 7) {
        begin(blank);
        model_faults.polls = 9;
        model_faults.later = later;
        holds(programs(100, RUN) && erases(2) && model_strange == 0, "both chips are waited for");
    }
    begin(blank);
    model_faults.polls = 3;
    model_faults.later = -1;
    holds(!programs(100, 1), "program: a chip that is never ready");
    uint32_t word = 0;
    holds(device_read(&device, 0, &word) == DEVICE_FAULT, "read: no status for a word");
    holds(!erases(0) && !programs(200, 1) && model_strange == 0, "no command while a chip is busy");
    restart();
    holds(reads(5, blank) && programs(300, 1), "a chip that is ready again");
}

static void try_recovery(void)
{
    begin(blank);
    model_faults.polls = POLLS + 5;
    holds(!programs(100, 1), "program: a chip that is ready too late");
    model_faults.polls = 0;
    holds(reads(5, blank) && programs(200, RUN) && reads(200, run[0]), "a chip that is ready later is taken again");
}

static void try_chips(void)
{
    const struct model_interface strange[STRANGE_CHIPS] = {
        {{'Q', 'R', 'X'}, 1, 128, 2 * MODEL_SECTOR_WORDS}, {{'q', 'R', 'Y'}, 1, 128, 2 * MODEL_SECTOR_WORDS},
        {{'Q', 'R', 'Y'}, 2, 128, 2 * MODEL_SECTOR_WORDS}, {{'Q', 'R', 'Y'}, 0x101, 128, 2 * MODEL_SECTOR_WORDS},
        {{'Q', 'R', 'Y'}, 1, SECTORS - 1, 2 * MODEL_SECTOR_WORDS}, {{'Q', 'R', 'Y'}, 1, 128, MODEL_SECTOR_WORDS},
    };
    uint32_t word;

    for (uint32_t i = 0; i < STRANGE_CHIPS; i++) {
        begin(blank);
        model_interface = strange[i];
        bool is_refused = device_read(&device, 0, &word) == DEVICE_FAULT && !programs(0, 1) && !erases(0);
        holds(is_refused && model_changes == 0, "a chip of another kind is left alone");
        holds(!device_is_new(), "a chip of another kind gets no card");
    }
    begin(blank);
    model_interface.sectors = SECTORS;
    holds(programs(0, 1), "a chip that is just large enough");
}

static void try_note(void)
{
    begin(blank);
    holds(device_is_new(), "a blank flash is new");
    device_set_made();
    holds(!device_is_new() && are_others(blank, start_of(NOTE_SECTOR), 1, 0, 0), "a flash with a card isn't new");
    restart();
    holds(!device_is_new(), "nor is it behind a reset");
    holds(NOTE_SECTOR > sector_of(FLASH_WORDS - 1), "the note is in none of the card's blocks");
    model_words[start_of(NOTE_SECTOR)] ^= 1;
    holds(device_is_new(), "a torn note is none");
    device_set_made();
    holds(!device_is_new(), "a torn note is written anew");
}

int main(void)
{
    try_places();
    try_changes();
    try_read_back();
    try_status();
    try_waiting();
    try_recovery();
    try_chips();
    try_note();
    printf("driver: %u passed, %u failed\n", passed, failed);
    return failed != 0;
}
