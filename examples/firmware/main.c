/* A card on a board without an operating system. The serial port carries messages in both directions. The card is kept
 * in a memory that survives a loss of power: here a part of the board's RAM, which qemu can keep in a file.
 *
 * To the card: an order (1 byte), a length (2 bytes, most significant first), and so many bytes.
 * From the card: an outcome of soffitfennel.h (1 byte), a length, and so many bytes.
 */
#include "soffitfennel.h"

#include <stdbool.h>

enum { OFF = 0, ON = 1, BLOCK = 2, FREE = 3, USE = 4 };
enum { MOST = SOFFITFENNEL_BLOCK, ALIGNMENT = 16, PAINT = 0xA5 };

/* The serial port of the board, an Arm PL011, and two bits of its flags. */
static volatile uint32_t *const port = (volatile uint32_t *)0x09000000;
enum { DATA = 0, FLAGS = 6, NOTHING_CAME = 1 << 4, CANNOT_SEND = 1 << 5 };

/* The memory that survives: words, each of which is stored whole or not at all, as in FRAM. */
extern uint32_t kept_begin[];

/* The pages of a new card. (make PAGES=4096 makes the largest one.) */
#ifndef PAGES
#define PAGES SOFFITFENNEL_PAGES
#endif
enum { KEPT = 1, WORDS = PAGES * SOFFITFENNEL_PAGE_WORDS };

extern uint8_t heap_begin[], heap_end[], stack_begin[], stack_end[];
static uint8_t *heap_free = heap_begin, *heap_kept = heap_begin, *heap_most = heap_begin;
static size_t pieces, pieces_kept;
static uint8_t sent[MOST + 1], reply[SOFFITFENNEL_ROOM];

/* What a try to get memory gives. The pointer is never null. */
struct tried {
    bool is_done;
    uint8_t *memory;
};

void *memcpy(void *to, const void *from, size_t size)
{
    for (size_t i = 0; i < size; i++)
        ((uint8_t *)to)[i] = ((const uint8_t *)from)[i];
    return to;
}

void *memmove(void *to, const void *from, size_t size)
{
    if ((uintptr_t)to <= (uintptr_t)from)
        return memcpy(to, from, size);
    for (size_t i = size; i > 0; i--)
        ((uint8_t *)to)[i - 1] = ((const uint8_t *)from)[i - 1];
    return to;
}

void *memset(void *to, int byte, size_t size)
{
    for (uint8_t *at = to; at < (uint8_t *)to + size; at++)
        *at = (uint8_t)byte;
    return to;
}

void rattle_dealloc(void *memory);

/* The heap grows. The card that is made is never ended; what a call asks for besides, a second card, it gives back. */
struct tried rattle_alloc(size_t size, size_t align)
{
    size_t whole = ((size != 0 ? size : align) + ALIGNMENT - 1) / ALIGNMENT * ALIGNMENT;
    struct tried result = {whole <= (size_t)(heap_end - heap_free), heap_free};

    heap_free += result.is_done ? whole : 0;
    heap_most = heap_free > heap_most ? heap_free : heap_most;
    pieces += result.is_done;
    return result;
}

struct tried rattle_realloc(uint8_t *memory, size_t kept, size_t size, size_t align)
{
    struct tried result = rattle_alloc(size, align);

    if (result.is_done) {
        memcpy(result.memory, memory, kept);
        rattle_dealloc(memory);
    }
    return result;
}

/* When a call gave back all its pieces, they are overwritten, since they held PINs, and the heap ends where it did. */
void rattle_dealloc(void *memory)
{
    (void)memory;
    pieces--;
    if (pieces == pieces_kept) {
        memset(heap_kept, 0, (size_t)(heap_free - heap_kept));
        heap_free = heap_kept;
    }
}

/* Keeps what was asked for up to now: the card. */
static void keep_heap(void)
{
    heap_kept = heap_free;
    pieces_kept = pieces;
}

/* Stores a device write of the card. The barrier waits until the memory has each word. */
int64_t soffitfennel_store(int32_t device, const void *bytes, size_t size, int64_t offset)
{
    const uint8_t *from = bytes;

    (void)device;
    for (size_t i = 0; i < size; i += 4)
        ((volatile uint32_t *)kept_begin)[((size_t)offset + i) / 4] = (uint32_t)from[i] << 24
            | (uint32_t)from[i + 1] << 16 | (uint32_t)from[i + 2] << 8 | from[i + 3];
    __asm__ volatile("dsb sy" ::: "memory");
    return (int64_t)size;
}

/* Whether the memory is as it was made: empty. */
static bool is_new(void)
{
    for (size_t i = 0; i < WORDS; i++)
        if (kept_begin[i] != 0)
            return false;
    return true;
}

/* Makes the card of the memory, and puts the factory card into it first if it is new. A loss of power under way leaves
 * a memory that is refused from then on: a real board gets its card in the factory. */
static int32_t make_card(soffitfennel_card **card)
{
    size_t size;

    if (is_new()) {
        int32_t outcome = soffitfennel_factory(card, PAGES);
        if (outcome == SOFFITFENNEL_DONE)
            outcome = soffitfennel_words(card, kept_begin, WORDS, &size);
        if (outcome != SOFFITFENNEL_DONE)
            return outcome;
        soffitfennel_free(card);
    }
    int32_t outcome = soffitfennel_attach(card, kept_begin, WORDS, KEPT);
    keep_heap();
    return outcome;
}

static uint8_t receive(void)
{
    while ((port[FLAGS] & NOTHING_CAME) != 0) {
    }
    return (uint8_t)port[DATA];
}

static void send(uint8_t byte)
{
    while ((port[FLAGS] & CANNOT_SEND) != 0) {
    }
    port[DATA] = byte;
}

static size_t put(size_t at, uint32_t number, size_t size)
{
    for (size_t i = 0; i < size; i++)
        reply[at + i] = (uint8_t)(number >> 8 * (size - 1 - i));
    return at + size;
}

/* The bytes of heap and of stack that were in use at most. */
static size_t tell_use(void)
{
    const uint8_t *deepest = stack_begin;

    while (*deepest == PAINT)
        deepest++;
    return put(put(0, (uint32_t)(heap_most - heap_begin), 4), (uint32_t)(stack_end - deepest), 4);
}

static int32_t obey(soffitfennel_card **card, uint8_t order, size_t count, size_t *size)
{
    uint16_t blocks, entries;
    int32_t outcome;

    *size = 0;
    switch (order) {
    case OFF:
        return soffitfennel_power_off(card);
    case ON:
        return soffitfennel_power_on(card);
    case BLOCK:
        return soffitfennel_block(card, sent, count, reply, SOFFITFENNEL_ROOM, size);
    case FREE:
        outcome = soffitfennel_free_space(card, &blocks, &entries);
        *size = put(put(0, blocks, 2), entries, 2);
        return outcome;
    case USE:
        *size = tell_use();
        return SOFFITFENNEL_DONE;
    default:
        return SOFFITFENNEL_SIZE;
    }
}

void run(void)
{
    soffitfennel_card *card = NULL;
    size_t size;

    if (make_card(&card) != SOFFITFENNEL_DONE)
        return;
    for (;;) {
        uint8_t order = receive();
        size_t count = (size_t)receive() << 8;
        count |= receive();
        for (size_t i = 0; i < count; i++)
            sent[i < MOST ? i : MOST] = receive();
        send((uint8_t)(count > MOST ? SOFFITFENNEL_SIZE : obey(&card, order, count, &size)));
        size = count > MOST ? 0 : size;
        send((uint8_t)(size >> 8));
        send((uint8_t)size);
        for (size_t i = 0; i < size; i++)
            send(reply[i]);
    }
}
