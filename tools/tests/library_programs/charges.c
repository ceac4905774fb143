/* Shows, under valgrind's memcheck, that no PIN command looks at a secret before its charge is stored: charges.
 *
 * The secrets in a card's memory are marked as undefined, so memcheck counts an error where a branch depends on one.
 * The device asks for that count at each write. As long as the image has all tries, it is 0. A device that loses power
 * at the charge, or refuses it, sees no error at all; one that refuses a write gets no other, and the command no
 * answer, nor has the buffer a byte of one. The number of errors of a wrong value is the same whatever byte differs
 * first, so no branch is on a byte. The last line has the number of commands.
 */
#include "soffitfennel.h"

#include <setjmp.h>
#include <stdbool.h>
#include <stdio.h>
#include <stdlib.h>
#include <string.h>
#include <valgrind/memcheck.h>

enum { DEVICE = 7, PIN_PAGE = 65, TRIES = 0, VALUE = 2, VALUE_WORDS = 4, SECRET = 8 };
enum plan { TAKE, REFUSE, LEAVE };

struct tried {
    bool is_done;
    uint8_t *memory;
};

static uint32_t image[SOFFITFENNEL_WORDS];
static uint8_t arena[1 << 20];
static size_t used;
static soffitfennel_card *card;
static jmp_buf out;

/* What the device does at the write of a number, from 1 on, and what it saw. */
static struct {
    enum plan plan;
    int at, made;
    bool is_paid; /* the stored card has had less tries of the PIN or of its PUK than before the command */
    unsigned errors, before;
    uint32_t tries, retries;
} seen;

static void must(bool holds, const char *what)
{
    if (!holds) {
        fprintf(stderr, "charges: %s\n", what);
        exit(1);
    }
}

/* (a heap of its own, so that the card's memory can be searched) */
struct tried rattle_alloc(size_t size, size_t align)
{
    size_t at = (used + 63) / 64 * 64;

    (void)align;
    used = at + size;
    must(used <= sizeof arena, "the heap is full");
    return (struct tried){true, arena + at};
}

struct tried rattle_realloc(void *memory, size_t kept, size_t size, size_t align)
{
    struct tried result = rattle_alloc(size, align);

    memcpy(result.memory, memory, kept < size ? kept : size);
    return result;
}

void rattle_dealloc(void *memory) { (void)memory; }

static const uint32_t *pin(void) { return image + PIN_PAGE * SOFFITFENNEL_PAGE_WORDS; }

int64_t soffitfennel_store(int32_t device, const void *bytes, size_t size, int64_t offset)
{
    const uint8_t *from = bytes;

    must(device == DEVICE, "another device");
    seen.errors = VALGRIND_COUNT_ERRORS - seen.before;
    must(seen.errors == 0 || seen.is_paid, "a secret was looked at before its charge was stored");
    if (++seen.made == seen.at && seen.plan == LEAVE)
        longjmp(out, 1);
    if (seen.made >= seen.at && seen.plan == REFUSE)
        return -1;
    bool is_new = false;
    for (size_t i = 0; i < size; i += 4) {
        uint32_t *word = &image[((size_t)offset + i) / 4], old = *word;
        *word = (uint32_t)from[i] << 24 | (uint32_t)from[i + 1] << 16 | (uint32_t)from[i + 2] << 8 | from[i + 3];
        is_new = is_new || *word != old;
    }
    must(is_new, "a write is stored twice");
    seen.is_paid = seen.is_paid || pin()[TRIES] < seen.tries || pin()[TRIES + 1] < seen.retries;
    return (int64_t)size;
}

/* Marks the values of the PIN in the card's memory as undefined. */
static void hide(void)
{
    int found = 0;

    for (size_t at = 0; at + 4 * VALUE_WORDS <= used; at += 4)
        if (memcmp(arena + at, pin() + VALUE, 4 * VALUE_WORDS) == 0) {
            VALGRIND_MAKE_MEM_UNDEFINED(arena + at, 4 * VALUE_WORDS);
            found++;
        }
    must(found >= 1, "the values of the PIN are not in the card's memory");
}

/* Runs a command on the card of an image, whose secrets are hidden. Its outcome, or -1 where the device left it. */
static int32_t run(const uint32_t *begin, const uint8_t *command, size_t count, uint8_t *answer, size_t *size)
{
    memcpy(image, begin, sizeof image);
    used = 0, card = NULL;
    must(soffitfennel_attach(&card, image, SOFFITFENNEL_WORDS, DEVICE) == SOFFITFENNEL_DONE, "no card");
    enum plan plan = seen.plan;
    seen.plan = TAKE, seen.made = 0;
    must(soffitfennel_power_on(&card) == SOFFITFENNEL_DONE, "no power");
    seen.plan = plan, seen.made = 0, seen.is_paid = false, seen.tries = pin()[TRIES], seen.retries = pin()[TRIES + 1];
    hide();
    seen.before = VALGRIND_COUNT_ERRORS;
    bool is_left = setjmp(out) != 0;
    int32_t outcome = is_left ? -1 : soffitfennel_command(&card, command, count, answer, SOFFITFENNEL_ROOM, size);
    seen.errors = VALGRIND_COUNT_ERRORS - seen.before;
    must(seen.errors == 0 || seen.is_paid, "a secret was looked at without a stored charge");
    return outcome;
}

/* Looks at a command: with a device that takes all writes, and with those that refuse it or lose power at each. */
static unsigned look_at(const uint32_t *begin, const uint8_t *command, size_t count, bool is_right)
{
    uint8_t answer[SOFFITFENNEL_ROOM];
    size_t size;

    seen.plan = TAKE, seen.at = 0;
    must(run(begin, command, count, answer, &size) == SOFFITFENNEL_DONE, "no answer");
    VALGRIND_MAKE_MEM_DEFINED(answer, sizeof answer);
    must((answer[size - 2] == 0x90) == is_right, "a wrong answer");
    unsigned errors = seen.errors;
    must(errors > 0, "no look at the secret is seen");
    for (int at = 1, last = seen.made; at <= last; at++) {
        seen.plan = LEAVE, seen.at = at;
        must(run(begin, command, count, answer, &size) == -1, "the device is not left");
        must(at > 1 || seen.errors == 0, "a secret was looked at before the first store");
        seen.plan = REFUSE, seen.at = at;
        memset(answer, 0xA5, sizeof answer);
        int32_t outcome = run(begin, command, count, answer, &size);
        must(outcome == SOFFITFENNEL_UNSTORED && size == 0, "a refused write is answered");
        must(at > 1 || seen.errors == 0, "a secret was looked at though its charge was refused");
        for (size_t i = 0; i < sizeof answer; i++)
            must(answer[i] == 0xA5, "a refused write leaves a part of the answer");
        must(soffitfennel_command(&card, command, count, answer, SOFFITFENNEL_ROOM, &size) == SOFFITFENNEL_UNSTORED,
             "a card whose write was refused runs on");
        must(seen.made == at, "a device that refused a write gets another one");
    }
    return errors;
}

int main(void)
{
    static const uint8_t value[SECRET] = {'1', '2', '3', '4', 0xFF, 0xFF, 0xFF, 0xFF};
    static const uint8_t puk[SECRET] = {'1', '2', '3', '4', '5', '6', '7', '8'};
    static const uint8_t instructions[] = {0x20, 0x24, 0x26, 0x2C};
    static uint32_t begin[SOFFITFENNEL_WORDS];
    size_t count;
    int looked = 0;

    must(RUNNING_ON_VALGRIND, "valgrind runs it");
    must(soffitfennel_factory(&card, SOFFITFENNEL_PAGES) == SOFFITFENNEL_DONE, "no factory card");
    must(soffitfennel_words(&card, begin, SOFFITFENNEL_WORDS, &count) == SOFFITFENNEL_DONE, "no words");
    for (size_t i = 0; i < sizeof instructions; i++) {
        bool is_two = instructions[i] == 0x24 || instructions[i] == 0x2C;
        uint8_t command[5 + 2 * SECRET] = {0, instructions[i], 0, 1, (uint8_t)(is_two ? 2 * SECRET : SECRET)};
        memcpy(command + 5, instructions[i] == 0x2C ? puk : value, SECRET);
        memcpy(command + 5 + SECRET, "8765\xFF\xFF\xFF\xFF", SECRET);
        look_at(begin, command, 5 + command[4], true);
        for (int byte = 0; byte < SECRET; byte++) {
            static unsigned errors;
            command[5 + byte] ^= 1;
            unsigned now = look_at(begin, command, 5 + command[4], false);
            command[5 + byte] ^= 1;
            must(byte == 0 || now == errors, "a branch is on a byte of the secret");
            errors = now;
            looked++;
        }
        looked++;
    }
    printf("charges: %d commands\n", looked);
    return 0;
}
