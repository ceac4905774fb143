/* The smart card of Soffitfennel in a C program.
 *
 *   #include "soffitfennel.h"
 *   #include <stdio.h>
 *
 *   static const uint8_t select_iccid[] = {0x00, 0xA4, 0x00, 0x0C, 0x02, 0x2F, 0xE2};
 *   static const uint8_t read_binary[] = {0x00, 0xB0, 0x00, 0x00, 0x0A};
 *
 *   static int show(soffitfennel_card **card, const uint8_t *command, size_t count)
 *   {
 *       uint8_t answer[SOFFITFENNEL_ROOM];
 *       size_t size;
 *       int32_t outcome = soffitfennel_command(card, command, count, answer, sizeof answer, &size);
 *
 *       if (outcome != SOFFITFENNEL_DONE) {
 *           fprintf(stderr, "%s\n", soffitfennel_outcome_name(outcome));
 *           return 1;
 *       }
 *       for (size_t i = 0; i < size; i++)
 *           printf("%02X", answer[i]);
 *       printf("\n");
 *       return 0;
 *   }
 *
 *   int main(void)
 *   {
 *       soffitfennel_card *card = NULL;
 *
 *       if (soffitfennel_factory(&card, SOFFITFENNEL_PAGES) != SOFFITFENNEL_DONE)
 *           return 1;
 *       soffitfennel_power_on(&card);
 *       show(&card, select_iccid, sizeof select_iccid);
 *       show(&card, read_binary, sizeof read_binary);
 *       soffitfennel_free(&card);
 *       return 0;
 *   }
 *
 * A card is one pointer. The caller keeps it, and passes its address. It is null before a maker makes a card, and after
 * soffitfennel_free. With a null pointer the other functions do nothing, and return ABSENT, whatever else they get. A
 * reader is another such pointer, with soffitfennel_reader_new and soffitfennel_reader_free. A buffer of 0 bytes or
 * words may be null. Every other pointer must not be null: the address of the card's pointer, and each pointer to a
 * number that a call returns.
 *
 * The caller has these duties, which no function can test:
 * - It sets the card's pointer to null at first, and changes it by these functions alone. It doesn't read or write
 *   what the pointer points to, and doesn't copy a pointer to use both copies.
 * - It makes one call at a time for each card. Another thread may make the next call. Different cards are independent.
 * - Its buffers are valid for the call, and don't overlap.
 * - It makes no call from a signal handler, nor in a child of fork that is part of a process with threads. A child of
 *   fork runs no card with a device.
 * - A device has one card at a time. Two cards would each give the tries of their PINs.
 * - malloc and free are of one allocator.
 *
 * All other input is tested: no length, number, command or block is wrong to pass.
 *
 * A card with a device. soffitfennel_attach makes a card whose device writes go to soffitfennel_store: the charge for a
 * PIN's try before the PIN is compared, all others before the call returns. If the device refuses the charge, nothing
 * is compared. The call that makes the card takes all its memory, also that of the copy that tells a charge. The image
 * on the device is the memory's words in order, the most significant byte of each first. After a loss of power the
 * caller makes the card again from the image, and power-on rolls back an unfinished command. Whoever reads the image
 * has all PINs, since it holds them in plain bytes; an old PIN can stay in its journal.
 */
#ifndef SOFFITFENNEL_H
#define SOFFITFENNEL_H

#include <stddef.h>
#include <stdint.h>

#define SOFFITFENNEL_VERSION "0.2.0"
#define SOFFITFENNEL_VERSION_MAJOR 0
#define SOFFITFENNEL_VERSION_MINOR 2
#define SOFFITFENNEL_VERSION_PATCH 0

#if defined __cplusplus && __cplusplus >= 201103L
#define SOFFITFENNEL_NOEXCEPT noexcept
#else
#define SOFFITFENNEL_NOEXCEPT
#endif

#ifdef __GNUC__
#pragma GCC visibility push(default)
#endif
#ifdef __cplusplus
extern "C" {
#endif

/* A card, and a reader's end of T=1. The library alone knows what is in them. */
typedef struct soffitfennel_card soffitfennel_card;
typedef struct soffitfennel_reader soffitfennel_reader;

/* The outcome of a call, which each function returns as an int32_t. A later version may have further ones. */
enum soffitfennel_outcome {
    SOFFITFENNEL_DONE = 0,        /* it was done */
    SOFFITFENNEL_MUTE = 1,        /* no answer: power is off, or power-on fails */
    SOFFITFENNEL_DARK = 2,        /* power was lost in this call, and is off */
    SOFFITFENNEL_LOST = 3,        /* the link was lost; power-on restores it */
    SOFFITFENNEL_SIZE = 4,        /* a length or a number is out of its range: nothing was done */
    SOFFITFENNEL_MEMORY = 5,      /* there is too little memory: nothing was done */
    SOFFITFENNEL_NO_CARD = 6,     /* the words are no valid card image: no card was made */
    SOFFITFENNEL_UNSTORED = 7,    /* the device did not take a write: make the card again from the device */
    SOFFITFENNEL_ABSENT = 8,      /* the card, or the reader, is null */
    SOFFITFENNEL_SEND = 9,        /* of a reader: send the block in the buffer */
    SOFFITFENNEL_RESYNCHED = 10,  /* of a reader: the link is in step again; the command may have run */
    SOFFITFENNEL_BAD_ANSWER = 11, /* of a reader: the answer's length was wrong; a reset restores the link */
    SOFFITFENNEL_OUT_OF_TURN = 12 /* of a reader: a command is in progress, or none is: nothing was done */
};

/* Sizes. */
enum soffitfennel_size {
    SOFFITFENNEL_ROOM = 258,          /* bytes of the buffer for an answer or a block, at least */
    SOFFITFENNEL_COMMAND = 261,       /* most bytes of a command; the least is 1 */
    SOFFITFENNEL_BLOCK = 300,         /* most bytes of a block to the card; the least is 1 */
    SOFFITFENNEL_NUMBER = 999999,     /* most of a number of a write or a block; the least is 1 */
    SOFFITFENNEL_WRITE = 64,          /* most bytes of a device write */
    SOFFITFENNEL_PAGES = 1024,        /* pages of the bench's factory card, and least pages of a memory */
    SOFFITFENNEL_MOST_PAGES = 4096,   /* most pages of a memory */
    SOFFITFENNEL_PAGE_WORDS = 16,     /* words of a page, of 4 bytes each */
    SOFFITFENNEL_WORDS = 16384,       /* words of 1,024 pages */
    SOFFITFENNEL_MOST_WORDS = 65536,  /* words of 4,096 pages */
    SOFFITFENNEL_ATR_SIZE = 7         /* bytes of the answer to reset */
};

/* The bits of a card's state. */
enum soffitfennel_state {
    SOFFITFENNEL_HAS_POWER = 1,     /* power is on */
    SOFFITFENNEL_HAS_DEVICE = 2,    /* soffitfennel_attach made it */
    SOFFITFENNEL_HAS_CUT = 4,       /* a power cut is pending */
    SOFFITFENNEL_HAS_LOSS = 8,      /* a block that the line loses is pending */
    SOFFITFENNEL_HAS_GARBLING = 16, /* a block that the line garbles is pending */
    SOFFITFENNEL_IS_UNSTORED = 32   /* the device did not take a write */
};

/* The answer to reset of every card: 7 bytes, and the 0 of a string. */
#define SOFFITFENNEL_ATR "\x3B\x80\x81\x31\xFE\x45\x8B"

/* The version of the library that runs, as SOFFITFENNEL_VERSION is that of this header. */
const char *soffitfennel_version(void) SOFFITFENNEL_NOEXCEPT;

/* The name of an outcome, without its prefix, such as "NO_CARD"; "UNKNOWN" of another number. */
const char *soffitfennel_outcome_name(int32_t outcome) SOFFITFENNEL_NOEXCEPT;

/* The makers put a card with power off into *card, and end the card that was there. If they return anything but DONE,
 * *card stays as it was. */

/* Makes the factory card on a memory of 1,024 to 4,096 pages. DONE, SIZE or MEMORY. */
int32_t soffitfennel_factory(soffitfennel_card **card, size_t pages) SOFFITFENNEL_NOEXCEPT;

/* Makes the card whose memory has these words, without a device. The words are copied. A memory has 16 words a page.
 * DONE, SIZE, MEMORY or NO_CARD. */
int32_t soffitfennel_insert(soffitfennel_card **card, const uint32_t *words, size_t count) SOFFITFENNEL_NOEXCEPT;

/* Makes the card whose memory has these words, with a device of any number. The device has the words already: this call
 * writes nothing. DONE, SIZE, MEMORY or NO_CARD. */
int32_t soffitfennel_attach(soffitfennel_card **card, const uint32_t *words, size_t count, int32_t device)
    SOFFITFENNEL_NOEXCEPT;

/* Stores a device write of a card that soffitfennel_attach made: so many bytes (4 to SOFFITFENNEL_WRITE, a multiple of
 * 4, all of one page) at this offset in the image. It returns size if the device has them all; any other value refuses
 * the write.
 *
 * The library has a function of this name for files. There the device's number is a descriptor that is open for
 * writing, and stays open and belongs to that file as long as the card lives: the system gives the number of a closed
 * descriptor to the next file, and the card would write into that. It is above 2, so that no standard stream writes
 * into the card. The file isn't mapped. Without O_DSYNC a write
 * survives the end of the program, but not a loss of power of the machine: page caches write in any order, so the image
 * can then hold no card at all. With O_DSYNC each write is on the disk before the next one.
 *
 * A program with another device defines this function itself. It owes the card this:
 * - It returns size only once no later loss of power takes the bytes back. A device that defers writes, as a cache
 *   does, lets an attacker try PINs at no cost.
 * - A word is old or new after a loss of power, never a mixture.
 * - It calls no function of the library for this card.
 * - It refuses a write if the device does not take it. On a chip in an attacker's hands it rather resets the processor.
 *   It may leave by longjmp, or end the program; a card that it left is used no more. */
int64_t soffitfennel_store(int32_t device, const void *bytes, size_t size, int64_t offset);

/* The next functions run the card. If its device refuses a write, each returns UNSTORED: the card gives no answer, and
 * the device gets no further write. From then on they return UNSTORED, and do nothing. A wrong SIZE comes before
 * that. */

/* Switches power on, after power off if it is on. DONE: the card booted. MUTE or DARK. */
int32_t soffitfennel_power_on(soffitfennel_card **card) SOFFITFENNEL_NOEXCEPT;

/* Switches power off. DONE. */
int32_t soffitfennel_power_off(soffitfennel_card **card) SOFFITFENNEL_NOEXCEPT;

/* Sends a command through a reader's end, the line and the card's end of T=1. The answer, with its two status bytes,
 * is in the buffer, and its length in *size. A room below SOFFITFENNEL_ROOM is refused before the command runs.
 * DONE, MUTE, DARK, LOST or SIZE; *size is 0 unless DONE. */
int32_t soffitfennel_command(soffitfennel_card **card, const uint8_t *command, size_t count,
                             uint8_t *answer, size_t room, size_t *size) SOFFITFENNEL_NOEXCEPT;

/* Sends a block of T=1 straight to the card's end, and gives the block that it sends back. The reader's end doesn't
 * know of it, so soffitfennel_command returns LOST until the next power-on.
 * DONE, MUTE, DARK or SIZE; *size is 0 unless DONE. */
int32_t soffitfennel_block(soffitfennel_card **card, const uint8_t *block, size_t count,
                           uint8_t *reply, size_t room, size_t *size) SOFFITFENNEL_NOEXCEPT;

/* Sets a power cut for a later device write: number 1 is the next one. Bit i of the mask says whether word i of the
 * write is new. DONE or SIZE. */
int32_t soffitfennel_cut(soffitfennel_card **card, uint32_t number, uint16_t mask) SOFFITFENNEL_NOEXCEPT;

/* Sets the block that the line loses, or garbles, in a later command: number 1 is the next block. DONE or SIZE. */
int32_t soffitfennel_lose(soffitfennel_card **card, uint32_t number) SOFFITFENNEL_NOEXCEPT;
int32_t soffitfennel_garble(soffitfennel_card **card, uint32_t number) SOFFITFENNEL_NOEXCEPT;

/* Returns the unused blocks of the memory, and the unused entries of the file table. DONE or MUTE; both are 0 unless
 * DONE. */
int32_t soffitfennel_free_space(soffitfennel_card **card, uint16_t *blocks, uint16_t *entries) SOFFITFENNEL_NOEXCEPT;

/* The next functions don't run the card. */

/* Takes back each pending cut, loss and garbling, and switches power off. DONE. */
int32_t soffitfennel_clear_faults(soffitfennel_card **card) SOFFITFENNEL_NOEXCEPT;

/* Returns the sum of the card's bits of enum soffitfennel_state. DONE; *state is 0 otherwise. */
int32_t soffitfennel_state(soffitfennel_card **card, uint32_t *state) SOFFITFENNEL_NOEXCEPT;

/* Copies the memory's words, and returns their number in *size. Power and session stay as they are. DONE; SIZE if count
 * is less than *size. */
int32_t soffitfennel_words(soffitfennel_card **card, uint32_t *words, size_t count, size_t *size)
    SOFFITFENNEL_NOEXCEPT;

/* Ends the card, if there is one, overwrites and frees its memory, and sets *card to null. */
void soffitfennel_free(soffitfennel_card **card) SOFFITFENNEL_NOEXCEPT;

/* The next functions need no card. */

/* Returns why soffitfennel_insert refuses words, or DONE. *why is 1 for a journal that no power cut leaves, 2 for
 * another damage, and 0 unless NO_CARD. DONE, SIZE, MEMORY or NO_CARD. */
int32_t soffitfennel_check(const uint32_t *words, size_t count, uint32_t *why) SOFFITFENNEL_NOEXCEPT;

/* Runs a script on a new factory card, as the bench does. Returns the bench's exit status, which is no outcome: 0, 2
 * for a bad line, 3 for a script that is too long, 4 if the output doesn't fit, 5 for too little memory. The output is
 * in the buffer, and its length in *size: 0 if it doesn't fit. */
int32_t soffitfennel_run(const uint8_t *script, size_t count, uint8_t *output, size_t room, size_t *size)
    SOFFITFENNEL_NOEXCEPT;

/* A reader's end of T=1 (ISO/IEC 7816-3, clause 11), for readers and drivers. It makes blocks of a command, and an
 * answer of the card's blocks; the caller sends and receives them, and measures time:
 *
 *   outcome = soffitfennel_reader_command(&reader, command, count, buffer, sizeof buffer, &size);
 *   while (outcome == SOFFITFENNEL_SEND) {
 *       got = send_and_wait(buffer, size, received);  (0 if no block came in time)
 *       outcome = soffitfennel_reader_receive(&reader, received, got, buffer, sizeof buffer, &size);
 *   }
 *
 * After DONE the answer is in the buffer. RESYNCHED: the command may have run, and is never sent again by itself. LOST
 * and BAD_ANSWER: every later command is LOST, until the caller resets the card, and the reader by
 * soffitfennel_reader_reset. docs/READER.md says what it does with each block. A reader has the duties of a card. */

/* Makes a reader as after power-on, and ends the reader that was there. DONE; MEMORY: *reader stays as it was. */
int32_t soffitfennel_reader_new(soffitfennel_reader **reader) SOFFITFENNEL_NOEXCEPT;

/* Begins a command of 1 to SOFFITFENNEL_COMMAND bytes. Its first block is in the buffer. SEND, LOST, SIZE (also of a
 * room below SOFFITFENNEL_ROOM) or OUT_OF_TURN; *size is 0 unless SEND. */
int32_t soffitfennel_reader_command(soffitfennel_reader **reader, const uint8_t *command, size_t count,
                                    uint8_t *block, size_t room, size_t *size) SOFFITFENNEL_NOEXCEPT;

/* Takes what the card sent, of any number of bytes; 0: nothing came in time. The next block, or the answer, is in the
 * buffer. The two buffers don't overlap. SEND, DONE, RESYNCHED, LOST, BAD_ANSWER, SIZE (a room below SOFFITFENNEL_ROOM)
 * or OUT_OF_TURN; *size is 0 unless SEND or DONE. */
int32_t soffitfennel_reader_receive(soffitfennel_reader **reader, const uint8_t *received, size_t count,
                                    uint8_t *out, size_t room, size_t *size) SOFFITFENNEL_NOEXCEPT;

/* Sets the reader back to its state after power-on, also within a command. Reset the card with it. DONE. */
int32_t soffitfennel_reader_reset(soffitfennel_reader **reader) SOFFITFENNEL_NOEXCEPT;

/* Ends the reader, if there is one, overwrites and frees its memory, and sets *reader to null. */
void soffitfennel_reader_free(soffitfennel_reader **reader) SOFFITFENNEL_NOEXCEPT;

#ifdef __cplusplus
}
#endif
#ifdef __GNUC__
#pragma GCC visibility pop
#endif

#endif
