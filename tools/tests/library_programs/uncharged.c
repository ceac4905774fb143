/* Calls the proved code as a program would that forgets the charge: uncharged. On a card with a device a command that
 * can compare a PIN runs only if its first write was handed out for the same bytes, and nothing ran since. Without that
 * the call returns UNSTORED, and the card is as it was. The write that was handed out counts as stored.
 */
#include "soffitfennel.h"

#include <stdbool.h>
#include <stdio.h>
#include <stdlib.h>
#include <string.h>

enum { DEVICE = 7, TRIES_BYTES = 4 };

/* The proved code, which library/writes.c calls. */
int32_t soffitfennelcore_command(soffitfennel_card **card, const uint8_t *given, size_t count, uint8_t *out,
                                 size_t room, size_t *size);
int32_t soffitfennelcore_first_of_command(soffitfennel_card **card, const uint8_t *given, size_t count, uint8_t *out,
                                          size_t room, size_t *offset, size_t *size);
int32_t soffitfennelcore_next_write(soffitfennel_card **card, uint8_t *out, size_t room, size_t *offset, size_t *size);

static const uint8_t wrong[] = {0x00, 0x20, 0x00, 0x01, 0x08, '9', '9', '9', '9', 0xFF, 0xFF, 0xFF, 0xFF};
static const uint8_t other[] = {0x00, 0x20, 0x00, 0x01, 0x08, '8', '8', '8', '8', 0xFF, 0xFF, 0xFF, 0xFF};
static const uint8_t query[] = {0x00, 0x20, 0x00, 0x01};
static const uint8_t select_iccid[] = {0x00, 0xA4, 0x00, 0x0C, 0x02, 0x2F, 0xE2};
static soffitfennel_card *card;

static void must(bool holds, const char *what)
{
    if (!holds) {
        fprintf(stderr, "uncharged: %s\n", what);
        exit(1);
    }
}

int64_t soffitfennel_store(int32_t device, const void *bytes, size_t size, int64_t offset)
{
    (void)bytes, (void)offset;
    must(device == DEVICE, "another device");
    return (int64_t)size;
}

static void make(void)
{
    static uint32_t words[SOFFITFENNEL_WORDS];
    size_t count;

    must(soffitfennel_factory(&card, SOFFITFENNEL_PAGES) == SOFFITFENNEL_DONE, "no factory card");
    must(soffitfennel_words(&card, words, SOFFITFENNEL_WORDS, &count) == SOFFITFENNEL_DONE, "no words");
    must(soffitfennel_attach(&card, words, count, DEVICE) == SOFFITFENNEL_DONE, "no card with a device");
    must(soffitfennel_power_on(&card) == SOFFITFENNEL_DONE, "no power");
}

/* Hands the first write of a command out, and returns its size. */
static size_t first_of(const uint8_t *command, size_t count)
{
    uint8_t bytes[SOFFITFENNEL_ROOM];
    size_t offset, size;

    must(soffitfennelcore_first_of_command(&card, command, count, bytes, sizeof bytes, &offset, &size)
             == SOFFITFENNEL_DONE,
         "no first write");
    return size;
}

/* Runs a command of the proved code, and returns its outcome. It has an answer if and only if it is done. */
static int32_t run(const uint8_t *command, size_t count)
{
    uint8_t answer[SOFFITFENNEL_ROOM];
    size_t size;
    int32_t outcome = soffitfennelcore_command(&card, command, count, answer, sizeof answer, &size);

    must((outcome == SOFFITFENNEL_DONE) == (size > 0), "an answer without an outcome");
    return outcome;
}

/* Counts the writes that the device lacks, which counts them as stored. */
static int lacking(void)
{
    uint8_t bytes[SOFFITFENNEL_ROOM];
    size_t offset, size;
    int count = 0;

    while (soffitfennelcore_next_write(&card, bytes, sizeof bytes, &offset, &size) == SOFFITFENNEL_DONE && size > 0)
        count++;
    return count;
}

int main(void)
{
    static uint32_t before[SOFFITFENNEL_WORDS], after[SOFFITFENNEL_WORDS];
    size_t count;

    make();
    must(soffitfennel_words(&card, before, SOFFITFENNEL_WORDS, &count) == SOFFITFENNEL_DONE, "no words");
    must(run(wrong, sizeof wrong) == SOFFITFENNEL_UNSTORED, "a PIN is compared without a charge");
    must(first_of(other, sizeof other) == TRIES_BYTES, "another value has no charge");
    must(run(wrong, sizeof wrong) == SOFFITFENNEL_UNSTORED, "a PIN is compared by the charge of another value");
    must(first_of(wrong, sizeof wrong) == TRIES_BYTES, "there is no charge");
    must(run(select_iccid, sizeof select_iccid) == SOFFITFENNEL_DONE, "a command without a charge doesn't run");
    must(run(wrong, sizeof wrong) == SOFFITFENNEL_UNSTORED, "a charge lasts over another command");
    must(first_of(wrong, sizeof wrong) == TRIES_BYTES, "there is no charge");
    must(soffitfennel_clear_faults(&card) == SOFFITFENNEL_DONE, "faults are not cleared");
    must(run(wrong, sizeof wrong) == SOFFITFENNEL_UNSTORED, "a charge lasts over a loss of power");
    must(soffitfennel_power_on(&card) == SOFFITFENNEL_DONE, "no power");
    must(soffitfennel_words(&card, after, SOFFITFENNEL_WORDS, &count) == SOFFITFENNEL_DONE, "no words");
    must(memcmp(before, after, sizeof before) == 0, "a refused command changes the card");
    must(first_of(wrong, sizeof wrong) == TRIES_BYTES, "there is no charge");
    must(run(wrong, sizeof wrong) == SOFFITFENNEL_DONE, "a charged command doesn't run");
    must(lacking() == 0, "the charge is handed out twice");
    must(run(wrong, sizeof wrong) == SOFFITFENNEL_UNSTORED, "one charge pays twice");
    must(first_of(query, sizeof query) == 0, "a query has a first write");
    must(run(query, sizeof query) == SOFFITFENNEL_DONE, "a query doesn't run");
    soffitfennel_free(&card);
    return 0;
}
