/* Tries the duties of the six functions of a device on the real memory, and prints each that it breaks. It leaves other
 * words in the memory than were there.
 *
 * Run it again after a reset: what the last run wrote has to be there. No test shows a duty whole. */
#include "board.h"
#include "card_device.h"

#include <stddef.h>

enum { PAGE_WORDS = 16, LEAST_PAGES = 1024, MOST_PAGES = 4096, SECRETS = 16, SECRET_BYTES = 8 };
/* the first two words of a memory that the last run left */
enum { MARK = 0x44555459, END_MARK = 0x454E4421 };

static struct device device;
static uint32_t passed, failed;

/* Called by the card alone. */
uint64_t port_receive(uint8_t *message, uint64_t room)
{
    (void)message;
    return room - room;
}

void port_send(const uint8_t *message, uint64_t size)
{
    (void)message;
    (void)size;
}

static void print(const char *text)
{
    for (; *text != 0; text++)
        board_put((uint8_t)*text);
}

static void print_number(uint32_t number)
{
    char digits[11];
    char *at = digits + sizeof digits;

    *--at = 0;
    do {
        *--at = (char)('0' + number % 10);
        number /= 10;
    } while (number != 0);
    print(at);
}

static void holds(bool is_so, const char *duty)
{
    passed += is_so ? 1 : 0;
    failed += is_so ? 0 : 1;
    if (is_so)
        return;
    print("broken: ");
    print(duty);
    print("\n");
}

/* The word that a round puts at an address: each differs from its neighbours and from other rounds. */
static uint32_t pattern(uint32_t at, uint32_t round)
{
    return (at + 1) * 2654435761u + round * 40503u;
}

static uint32_t pages(void)
{
    return device_pages(&device);
}

static bool reads(uint32_t at, uint32_t wanted)
{
    uint32_t word = ~wanted;

    return device_read(&device, (uint16_t)at, &word) == DEVICE_DONE && word == wanted;
}

static bool all_read(uint32_t round)
{
    for (uint32_t at = 0; at < pages() * PAGE_WORDS; at++)
        if (!reads(at, pattern(at, round)))
            return false;
    return true;
}

/* Writes words from an address on, all in one page. */
static bool writes(uint32_t at, uint32_t count, uint32_t round)
{
    uint32_t words[PAGE_WORDS];

    for (uint32_t i = 0; i < count; i++)
        words[i] = pattern(at + i, round);
    return device_write(&device, (uint16_t)(at / PAGE_WORDS), (uint8_t)(at % PAGE_WORDS), words, count) == DEVICE_DONE;
}

static bool all_write(uint32_t round)
{
    for (uint32_t page = 0; page < pages(); page++)
        if (!writes(page * PAGE_WORDS, PAGE_WORDS, round))
            return false;
    return true;
}

static void try_size(void)
{
    uint32_t count = pages();

    holds(count >= LEAST_PAGES && count <= MOST_PAGES, "device_pages: 1024 to 4096 pages");
    all_write(1);
    holds(pages() == count, "device_pages: always the same number");
}

static void try_words(void)
{
    holds(all_write(2), "device_write: done while there is power");
    holds(all_read(2), "device_read: each word is the one that was written");
    holds(all_read(2), "device_read: a read changes no word");
    holds(all_write(3) && all_read(3), "device_write: a word can be written again");
    for (uint32_t bit = 0; bit < 32; bit++) {
        uint32_t word = 1u << bit, other = ~word;
        bool is_so = device_write(&device, 1, 3, &word, 1) == DEVICE_DONE && reads(PAGE_WORDS + 3, word)
            && device_write(&device, 1, 3, &other, 1) == DEVICE_DONE && reads(PAGE_WORDS + 3, other);
        holds(is_so, "device_write: each bit goes up and down");
    }
}

/* Each run of a page: its words are new, and no other word of the memory changes. */
static void try_runs(void)
{
    uint32_t page = pages() / 2, start = page * PAGE_WORDS;
    bool is_new = true, is_alone = true;

    all_write(4);
    for (uint32_t first = 0; first < PAGE_WORDS; first++) {
        for (uint32_t count = 1; first + count <= PAGE_WORDS; count++) {
            writes(start + first, count, 5);
            for (uint32_t i = 0; i < PAGE_WORDS; i++) {
                bool is_in = i >= first && i < first + count;
                bool is_so = reads(start + i, pattern(start + i, is_in ? 5 : 4));
                is_new &= is_so || !is_in;
                is_alone &= is_so || is_in;
            }
            writes(start, PAGE_WORDS, 4);
        }
    }
    holds(is_new, "device_write: 1 to 16 words from any word of a page on");
    holds(is_alone, "device_write: the other words of the page stay");
    holds(all_read(4), "device_write: the words of other pages stay");
}

static void try_secrets(void)
{
    uint8_t kept[SECRET_BYTES] = {0x31, 0x32, 0x33, 0x34, 0xFF, 0, 0x80, 1}, shown[SECRET_BYTES];
    bool is_equal, differs = true, stays = true;

    for (size_t i = 0; i < SECRET_BYTES; i++)
        shown[i] = kept[i];
    for (uint32_t secret = 0; secret < SECRETS; secret++) {
        is_equal = false;
        bool is_so = device_compare(&device, (uint8_t)secret, kept, shown, &is_equal) == DEVICE_DONE && is_equal;
        holds(is_so, "device_compare: equal bytes are equal");
    }
    for (uint32_t bit = 0; bit < 8 * SECRET_BYTES; bit++) {
        shown[bit / 8] ^= (uint8_t)(1 << bit % 8);
        is_equal = true;
        differs &= device_compare(&device, 0, kept, shown, &is_equal) == DEVICE_DONE && !is_equal;
        shown[bit / 8] ^= (uint8_t)(1 << bit % 8);
        for (size_t i = 0; i < SECRET_BYTES; i++)
            stays &= kept[i] == shown[i];
    }
    holds(differs, "device_compare: a difference of one bit is one");
    holds(stays, "device_compare: both values stay as they are");
    holds(all_read(4), "device_compare: no word changes");
}

static void try_power(void)
{
    uint8_t secret[SECRET_BYTES] = {0};
    uint32_t word = 0, before = ~pattern(5, 4);
    bool is_equal = false;

    device_power_off(&device);
    holds(device_read(&device, 5, &word) == DEVICE_LOST, "device_read: DEVICE_LOST while power is off");
    holds(device_write(&device, 0, 5, &before, 1) == DEVICE_LOST, "device_write: DEVICE_LOST while power is off");
    holds(device_compare(&device, 0, secret, secret, &is_equal) == DEVICE_LOST,
          "device_compare: DEVICE_LOST while power is off");
    holds(device_light(&device), "device_light: true");
    holds(all_read(4), "device_power_off: words stay, and none is written while power is off");
    holds(device_light(&device) && all_read(4), "device_light: words stay");
}

/* What the run before the reset left. */
static void try_reset(void)
{
    bool is_kept = true;

    if (!reads(0, MARK) || !reads(1, END_MARK)) {
        print("no run before this one\n");
        return;
    }
    for (uint32_t at = PAGE_WORDS; at < pages() * PAGE_WORDS; at++)
        is_kept &= reads(at, pattern(at, 6));
    holds(is_kept, "device_write: words stay without power");
}

static void leave_marks(void)
{
    const uint32_t marks[] = {MARK, END_MARK};

    all_write(6);
    holds(device_write(&device, 0, 0, marks, 2) == DEVICE_DONE, "device_write: two words");
}

void run(void)
{
    board_begin();
    holds(device_light(&device), "device_light: true at the start");
    try_reset();
    try_size();
    try_words();
    try_runs();
    try_secrets();
    try_power();
    leave_marks();
    print("duties: ");
    print_number(passed);
    print(" passed, ");
    print_number(failed);
    print(" failed\n");
}
