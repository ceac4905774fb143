/* Tries the duties of the three functions of a flash on the real memory, and prints each that it breaks. It leaves
 * other words in the flash than were there.
 *
 * Run it again after a reset: what the last run wrote has to be there. No test shows a duty whole. */
#include "board.h"
#include "card_device.h"

#include <stdbool.h>
#include <stddef.h>

enum { WORD_BITS = 32, PAIR_WORDS = FLASH_UNIT_WORDS > 2 ? FLASH_UNIT_WORDS : 2 };
static const uint32_t blank = 0xFFFFFFFF;
/* where each block begins, and where the last one ends */
static const uint32_t starts[FLASH_BLOCKS + 1] = {0, FLASH_AREA_WORDS, 2 * FLASH_AREA_WORDS, FLASH_WORDS};
static const char *const names[FLASH_BLOCKS] = {"area A", "area B", "the witness"};

static struct device device;
static uint32_t passed, failed;
/* the round that put its words into each block, or 0 for a blank one, and up to where it came */
static uint32_t rounds[FLASH_BLOCKS], ends[FLASH_BLOCKS];
/* the words of the sectors that were erased alone */
static uint32_t hole, hole_end;

static void print(const char *text)
{
    for (; *text != 0; text++)
        board_put((uint8_t)*text);
}

static void print_number(uint32_t number)
{
    char digits[11];
    char *at = digits + sizeof digits;

    *--at = 0;
    do {
        *--at = (char)('0' + number % 10);
        number /= 10;
    } while (number != 0);
    print(at);
}

static void holds(bool is_so, const char *duty, const char *of)
{
    passed += is_so ? 1 : 0;
    failed += is_so ? 0 : 1;
    if (is_so)
        return;
    print("broken: ");
    print(duty);
    print(of);
    print("\n");
}

/* The word that a round puts at an address: each differs from its neighbours and from other rounds. */
static uint32_t pattern(uint32_t at, uint32_t round)
{
    return (at + 1) * 2654435761u + round * 40503u;
}

static bool reads(uint32_t at, uint32_t wanted)
{
    uint32_t word = ~wanted;

    return device_read(&device, at, &word) == DEVICE_DONE && word == wanted;
}

/* Whether the words of a block are as the calls left them. */
static bool is_kept(uint32_t block)
{
    for (uint32_t at = starts[block]; at < starts[block + 1]; at++)
        if (!reads(at, at < ends[block] && (at < hole || at >= hole_end) ? pattern(at, rounds[block]) : blank))
            return false;
    return true;
}

static bool are_others_kept(uint32_t block)
{
    for (uint32_t other = 0; other < FLASH_BLOCKS; other++)
        if (other != block && !is_kept(other))
            return false;
    return true;
}

/* Programs the next words of a block. */
static bool programs(uint32_t block, uint32_t count)
{
    uint32_t words[FLASH_SLOT_WORDS], at = ends[block];

    for (uint32_t i = 0; i < count; i++)
        words[i] = pattern(at + i, rounds[block]);
    ends[block] = at + count;
    return device_program(&device, at, words, count) == DEVICE_DONE;
}

/* Where a sector of an area begins, or the witness. */
static uint32_t start_of(uint32_t sector)
{
    return starts[sector / FLASH_SECTORS] + sector % FLASH_SECTORS * FLASH_SECTOR_WORDS;
}

static bool erases_sector(uint32_t sector)
{
    return device_erase(&device, (uint16_t)sector) == DEVICE_DONE;
}

/* Erases the sectors of a block. */
static bool erases(uint32_t block)
{
    uint32_t first = block * FLASH_SECTORS, count = block == FLASH_BLOCKS - 1 ? 1 + FLASH_SPARES : FLASH_SECTORS;
    bool is_done = true;

    rounds[block] = 0;
    ends[block] = starts[block];
    for (uint32_t i = 0; i < count; i++)
        is_done &= erases_sector(first + i);
    return is_done;
}

/* Programs a blank block as the card does: records and their marks, and the mark that closes the block. */
static bool fills(uint32_t block, uint32_t round)
{
    bool is_done = true;

    rounds[block] = round;
    while (ends[block] + FLASH_SLOT_WORDS <= starts[block + 1])
        is_done &= programs(block, FLASH_RECORD_WORDS) && programs(block, FLASH_SLOT_WORDS - FLASH_RECORD_WORDS);
    return programs(block, starts[block + 1] - ends[block]) && is_done;
}

static void try_blocks(void)
{
    for (uint32_t block = 0; block < FLASH_BLOCKS; block++)
        holds(erases(block), "device_erase: done, of ", names[block]);
    for (uint32_t block = 0; block < FLASH_BLOCKS; block++) {
        holds(is_kept(block), "device_erase: all words are blank, of ", names[block]);
        holds(fills(block, block + 1), "device_program: done, in ", names[block]);
        holds(is_kept(block), "device_program: the words are there, in ", names[block]);
        holds(are_others_kept(block), "device_program: no word changes outside ", names[block]);
        holds(is_kept(block), "device_read: a read changes no word of ", names[block]);
    }
    for (uint32_t block = 0; block < FLASH_BLOCKS; block++) {
        holds(erases(block) && is_kept(block), "device_erase: what was programmed is blank, of ", names[block]);
        holds(are_others_kept(block), "device_erase: no word changes outside ", names[block]);
        holds(fills(block, block + 4) && is_kept(block), "device_program: behind an erase, in ", names[block]);
    }
}

/* The sectors of an area one by one, in area A from the first on and in area B from the last on: no other changes. */
static void try_sectors(uint32_t block)
{
    bool is_done = erases(block) && fills(block, block + 8), is_alone = true;

    hole = hole_end = block == 0 ? starts[0] : starts[2];
    for (uint32_t i = 0; i < FLASH_SECTORS; i++) {
        uint32_t sector = block == 0 ? i : 2 * FLASH_SECTORS - 1 - i;
        is_done &= erases_sector(sector);
        hole = block == 0 ? hole : start_of(sector);
        hole_end = block == 0 ? start_of(sector + 1) : hole_end;
        is_alone &= is_kept(block) && are_others_kept(block);
    }
    holds(is_done, "device_erase: sector by sector, of ", names[block]);
    holds(is_alone, "device_erase: no word changes outside the sector, in ", names[block]);
    hole = hole_end = 0;
    ends[block] = starts[block];
}

/* Runs of each length, one behind the other: what is around a run stays. */
static void try_runs(void)
{
    bool is_done = erases(0), is_there = true;

    rounds[0] = 7;
    for (uint32_t count = FLASH_UNIT_WORDS; count <= FLASH_SLOT_WORDS; count += FLASH_UNIT_WORDS) {
        is_done &= programs(0, count);
        is_there &= is_kept(0);
    }
    holds(is_done, "device_program: runs of each length", "");
    holds(is_there, "device_program: a run is there, and no word around it changes", "");
}

static void try_bits(void)
{
    uint32_t at = ends[0];
    bool is_done = true;

    for (uint32_t bit = 0; bit < WORD_BITS; bit++, at += PAIR_WORDS) {
        uint32_t words[PAIR_WORDS];
        for (uint32_t i = 2; i < PAIR_WORDS; i++)
            words[i] = blank;
        words[0] = (uint32_t)1 << bit;
        words[1] = ~words[0];
        is_done &= device_program(&device, at, words, PAIR_WORDS) == DEVICE_DONE;
        is_done &= reads(at, words[0]) && reads(at + 1, words[1]);
    }
    holds(is_done, "device_program: each bit is cleared or stays", "");
    holds(are_others_kept(0), "device_program: no word changes in the other blocks", "");
}

/* An erase of a block that is blank, or that is half full, is one. */
static void try_erases(void)
{
    holds(erases(0) && is_kept(0), "device_erase: of a block that isn't full", "");
    holds(erases(0) && is_kept(0), "device_erase: of a blank block", "");
    holds(are_others_kept(0), "device_erase: the other blocks stay", "");
}

/* What the run before the reset left. */
static void try_reset(void)
{
    bool is_so = true;

    for (uint32_t block = 0; block < FLASH_BLOCKS; block++) {
        rounds[block] = block + 10;
        ends[block] = starts[block + 1];
    }
    if (!reads(FLASH_WORDS - 2, pattern(FLASH_WORDS - 2, rounds[2])) || !reads(1, pattern(1, rounds[0]))) {
        print("no run before this one\n");
        return;
    }
    for (uint32_t block = 0; block < FLASH_BLOCKS; block++)
        is_so &= is_kept(block);
    holds(is_so, "device_program: words stay without power", "");
}

static void leave_words(void)
{
    for (uint32_t block = 0; block < FLASH_BLOCKS; block++)
        holds(erases(block) && fills(block, block + 10), "device_program: in the end, ", names[block]);
}

void run(void)
{
    board_begin();
    try_reset();
    try_blocks();
    for (uint32_t block = 0; block < FLASH_BLOCKS - 1 && FLASH_SECTORS > 1; block++)
        try_sectors(block);
    try_runs();
    try_bits();
    try_erases();
    leave_words();
    print("duties: ");
    print_number(passed);
    print(" passed, ");
    print_number(failed);
    print(" failed\n");
}
