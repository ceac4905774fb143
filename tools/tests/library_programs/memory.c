/* The library's heap and its device, and what it does without memory: memory. Each piece of memory that is freed is all
 * zeros then. Where the allocator fails at its call 1, 2, .., a maker returns MEMORY, changes nothing, and leaves no
 * memory behind. No call of a card asks for memory, also where it can compare a PIN, on a card with a device. */
#include "soffitfennel.h"

#include <errno.h>
#include <malloc.h>
#include <stdbool.h>
#include <stdio.h>
#include <stdlib.h>
#include <string.h>
#include <sys/types.h>

struct tried {
    bool is_done;
    uint8_t *memory;
};

struct tried rattle_alloc(size_t size, size_t align);
struct tried rattle_realloc(void *memory, size_t kept, size_t size, size_t align);
void rattle_dealloc(void *memory);
void *__real_malloc(size_t size);
void __real_free(void *memory);
void *__wrap_malloc(size_t size);
void __wrap_free(void *memory);
ssize_t __wrap_pwrite(int file, const void *bytes, size_t size, off_t offset);

static long asked, fails_at, live;
static uint32_t words[SOFFITFENNEL_MOST_WORDS];
static soffitfennel_card *card;

static void must(bool holds, const char *what)
{
    if (!holds) {
        fprintf(stderr, "memory: %s\n", what);
        exit(1);
    }
}

void *__wrap_malloc(size_t size)
{
    if (++asked == fails_at)
        return NULL;
    live++;
    void *memory = __real_malloc(size);
    /* (bytes that nobody wrote are no secret) */
    return memory == NULL ? NULL : memset(memory, 0, malloc_usable_size(memory));
}

void __wrap_free(void *memory)
{
    live -= memory != NULL;
    for (size_t i = 0; memory != NULL && i < malloc_usable_size(memory); i++)
        must(((uint8_t *)memory)[i] == 0, "memory is freed with what was in it");
    __real_free(memory);
}

/* A system that takes three bytes at a time, is interrupted before each, and takes nothing behind the end. */
static uint8_t disk[SOFFITFENNEL_WRITE];
static long stored;

ssize_t __wrap_pwrite(int file, const void *bytes, size_t size, off_t offset)
{
    static bool is_interrupted;
    size_t taken = size < 3 ? size : 3;

    must((file == 9 || file == 10) && offset >= 0, "a wrong file or place");
    if (file == 10) {
        stored++;
        return (ssize_t)size;
    }
    errno = EINTR;
    is_interrupted = !is_interrupted;
    if (is_interrupted)
        return -1;
    errno = ENOSPC;
    if ((size_t)offset + taken > sizeof disk)
        return (size_t)offset < sizeof disk ? 0 : -1;
    memcpy(disk + offset, bytes, taken);
    return (ssize_t)taken;
}

/* The library's own device stores each byte, or refuses the write. */
static void test_store(void)
{
    uint8_t bytes[SOFFITFENNEL_WRITE];

    for (size_t i = 0; i < sizeof bytes; i++)
        bytes[i] = (uint8_t)(i + 1);
    for (size_t size = 4; size <= sizeof bytes; size += 4) {
        memset(disk, 0, sizeof disk);
        size_t at = sizeof disk - size;
        must(soffitfennel_store(9, bytes, size, (int64_t)at) == (int64_t)size, "a write is refused");
        must(memcmp(disk + at, bytes, size) == 0 && (at == 0 || disk[at - 1] == 0), "a write is stored in part");
        must(soffitfennel_store(9, bytes, size, (int64_t)at + 4) != (int64_t)size,
             "a part of a write is taken for all");
    }
}

/* A piece of memory grows and shrinks, and keeps its bytes. */
static void test_realloc(void)
{
    struct tried it = rattle_alloc(100, 1);

    must(it.is_done && (uintptr_t)it.memory % _Alignof(max_align_t) == 0, "no memory");
    memset(it.memory, 'a', 100);
    for (size_t size = 200, kept = 100; size > 0; kept = kept < size ? kept : size, size /= 3) {
        it = rattle_realloc(it.memory, kept, size, 1);
        must(it.is_done, "no memory again");
        for (size_t i = 0; i < (kept < size ? kept : size); i++)
            must(it.memory[i] == 'a', "a byte is lost");
        memset(it.memory, 'a', size);
    }
    fails_at = asked + 1;
    uint8_t first = it.memory[0];
    must(!rattle_realloc(it.memory, 1, 1000, 1).is_done && it.memory[0] == first, "memory that can't grow is lost");
    must(!rattle_alloc(SIZE_MAX, 1).is_done && !rattle_realloc(it.memory, 1, SIZE_MAX - 8, 1).is_done,
         "too much memory");
    fails_at = 0;
    struct tried none = rattle_alloc(0, 16);
    must(none.is_done && none.memory != it.memory, "no memory of 0 bytes");
    rattle_dealloc(none.memory);
    rattle_dealloc(it.memory);
    must(live == 0, "memory is left");
}

static int32_t factory(soffitfennel_card **made) { return soffitfennel_factory(made, SOFFITFENNEL_MOST_PAGES); }
static int32_t insert(soffitfennel_card **made) { return soffitfennel_insert(made, words, SOFFITFENNEL_MOST_WORDS); }
static int32_t attach(soffitfennel_card **made) { return soffitfennel_attach(made, words, SOFFITFENNEL_MOST_WORDS, 9); }
static int32_t check(soffitfennel_card **made)
{
    uint32_t why = 9;
    int32_t outcome = soffitfennel_check(words, SOFFITFENNEL_MOST_WORDS, &why);

    (void)made;
    must(why == 0, "a reason without a fault");
    return outcome;
}

/* A call, with an allocator that fails at each of its calls. */
static void test_want(int32_t (*call)(soffitfennel_card **), const char *what)
{
    long pieces = live, failures = 0;
    soffitfennel_card *before = card;

    for (fails_at = asked + 1; call(&card) != SOFFITFENNEL_DONE; fails_at = asked + 1 + ++failures) {
        must(card == before && live == pieces, what);
        must(asked >= fails_at, "MEMORY though there was enough");
    }
    must(failures > 0, "a call without memory is done");
    fails_at = 0;
}

/* No call of a card asks for memory. */
static void test_running(void)
{
    static const uint8_t select_iccid[] = {0x00, 0xA4, 0x00, 0x0C, 0x02, 0x2F, 0xE2};
    uint8_t answer[SOFFITFENNEL_ROOM];
    uint16_t blocks, entries;
    uint32_t state;
    size_t size;
    long before = asked;

    must(soffitfennel_words(&card, words, SOFFITFENNEL_MOST_WORDS, &size) == SOFFITFENNEL_DONE, "no words");
    must(size == SOFFITFENNEL_MOST_WORDS, "a wrong number of words");
    soffitfennel_power_on(&card);
    soffitfennel_command(&card, select_iccid, sizeof select_iccid, answer, sizeof answer, &size);
    soffitfennel_block(&card, select_iccid, sizeof select_iccid, answer, sizeof answer, &size);
    soffitfennel_free_space(&card, &blocks, &entries);
    soffitfennel_state(&card, &state);
    soffitfennel_clear_faults(&card);
    soffitfennel_power_off(&card);
    must(asked == before, "a call of a card asks for memory");
}

static const uint8_t verify[] = {0x00, 0x20, 0x00, 0x01, 8, '9', '9', '9', '9', 0xFF, 0xFF, 0xFF, 0xFF};
static size_t answered;

static int32_t present(soffitfennel_card **made)
{
    uint8_t answer[SOFFITFENNEL_ROOM];

    return soffitfennel_command(made, verify, sizeof verify, answer, sizeof answer, &answered);
}

/* A VERIFY on a card with a device, twice: the copy that tells the charge was made with the card. */
static void test_charge(void)
{
    long before, pieces;

    must(soffitfennel_attach(&card, words, SOFFITFENNEL_MOST_WORDS, 10) == SOFFITFENNEL_DONE, "no card with a device");
    must(soffitfennel_power_on(&card) == SOFFITFENNEL_DONE, "no power");
    before = asked;
    pieces = live;
    fails_at = asked + 1;
    for (int tries = 1; tries <= 2; tries++) {
        stored = 0;
        must(present(&card) == SOFFITFENNEL_DONE && answered == 2 && stored > 0, "no answer to a VERIFY");
    }
    must(asked == before && live == pieces, "a VERIFY asks for memory");
    fails_at = 0;
}

/* A reader takes one piece of memory when it is made, and gives it back, also where it held a PIN. Other calls ask for
 * none. */
static void test_reader(void)
{
    uint8_t block[SOFFITFENNEL_ROOM];
    soffitfennel_reader *reader = NULL, *first;
    size_t size;
    long pieces = live;

    fails_at = asked + 1;
    must(soffitfennel_reader_new(&reader) == SOFFITFENNEL_MEMORY && reader == NULL, "a reader without memory");
    must(soffitfennel_reader_new(&reader) == SOFFITFENNEL_DONE && live == pieces + 1, "a reader of one piece");
    first = reader;
    fails_at = asked + 1;
    must(soffitfennel_reader_new(&reader) == SOFFITFENNEL_MEMORY && reader == first, "a reader that stays");
    fails_at = asked + 1;
    must(soffitfennel_reader_command(&reader, verify, sizeof verify, block, sizeof block, &size) == SOFFITFENNEL_SEND,
         "a command asks for memory");
    must(soffitfennel_reader_receive(&reader, NULL, 0, block, sizeof block, &size) == SOFFITFENNEL_SEND,
         "a block asks for memory");
    must(soffitfennel_reader_reset(&reader) == SOFFITFENNEL_DONE && asked == fails_at - 1, "a reset asks for memory");
    fails_at = 0;
    must(soffitfennel_reader_new(&reader) == SOFFITFENNEL_DONE && live == pieces + 1, "a reader in place of another");
    soffitfennel_reader_free(&reader);
    soffitfennel_reader_free(&reader);
    must(reader == NULL && live == pieces, "memory of a reader is left");
}

/* A buffer of 0 bytes may be null. */
static void test_null(void)
{
    soffitfennel_card *none = NULL;
    uint32_t why = 9;
    size_t size = 9;

    must(soffitfennel_command(&card, NULL, 0, NULL, 0, &size) == SOFFITFENNEL_SIZE && size == 0,
         "a command of nothing");
    must(soffitfennel_block(&card, NULL, 0, NULL, 0, &size) == SOFFITFENNEL_SIZE && size == 0, "a block of nothing");
    must(soffitfennel_words(&card, NULL, 0, &size) == SOFFITFENNEL_SIZE, "words to nowhere");
    must(size == SOFFITFENNEL_MOST_WORDS, "a wrong number of words");
    must(soffitfennel_insert(&none, NULL, 0) == SOFFITFENNEL_SIZE && none == NULL, "a card of nothing");
    must(soffitfennel_attach(&none, NULL, 0, 9) == SOFFITFENNEL_SIZE && none == NULL, "a card of nothing");
    must(soffitfennel_check(NULL, 0, &why) == SOFFITFENNEL_SIZE && why == 0, "an image of nothing");
    must(soffitfennel_run(NULL, 0, NULL, 0, &size) == 0 && size == 0, "a script of nothing");
    soffitfennel_free(&none);
}

int main(void)
{
    test_realloc();
    test_store();
    must(soffitfennel_factory(&card, SOFFITFENNEL_MOST_PAGES) == SOFFITFENNEL_DONE, "no card");
    test_running();
    test_null();
    test_want(factory, "a factory card that is not made changes something");
    test_want(insert, "a card that is not inserted changes something");
    test_want(attach, "a card that is not attached changes something");
    test_want(check, "words that are not checked change something");
    test_charge();
    test_reader();
    soffitfennel_free(&card);
    must(live == 0, "memory is left at the end");
    printf("memory: %ld pieces\n", asked);
    return 0;
}
