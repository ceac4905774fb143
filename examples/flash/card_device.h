/* The card over a flash of yours. You write the six functions in the middle, and call those at the end.
 *
 * The card asks for nothing else but memcpy, memmove and memset: it has no heap and no static data. Sizes have 64 bits
 * on each processor. tools/chip refuses a header whose numbers have other widths than the proved code's. */
#ifndef CARD_DEVICE_H
#define CARD_DEVICE_H

#include <stdint.h>

/* A device as the card stores it: a number or an address of yours, which the card never looks behind. */
struct device {
    uint64_t own;
};

/* The results of calls of the flash. DEVICE_LOST: power failed in the call. It is no answer while there is power.
 * DEVICE_FAULT, or any other number: the flash failed, and still has power. */
enum { DEVICE_DONE = 0, DEVICE_LOST = 1, DEVICE_FAULT = 2 };

/* The results of the card's functions. */
enum {
    CARD_ENDED = 0,
    CARD_LOST = 1,
    CARD_START_LOST = 3,
    CARD_START_FAULT = 4,
    CARD_BAD_JOURNAL = 5,
    CARD_DAMAGED = 6,
    CARD_NOT_MADE = 7,
    CARD_TOO_LARGE = 8
};

/* The flash has three blocks: area A, area B and the witness. Their words have the addresses from 0 on. A word is blank
 * if all its bits are set. An erase is one of a sector. Those of area A have the numbers from 0 on, those of area B
 * follow, and the witness is the last. A sector of an area has FLASH_SECTOR_WORDS, and its last one what is left. */
enum {
    FLASH_SLOTS = 1280,
    FLASH_SECTOR_WORDS = 65536,
    FLASH_UNIT_WORDS = 1,
    FLASH_RECORD_WORDS = 18,
    FLASH_SLOT_WORDS = 20,
    FLASH_AREA_WORDS = FLASH_SLOT_WORDS * FLASH_SLOTS + 2,
    FLASH_WITNESS_WORDS = 2,
    FLASH_SPARES = 0,
    FLASH_MAP_WORDS = 20 * FLASH_SPARES,
    FLASH_WORDS = 2 * FLASH_AREA_WORDS + FLASH_WITNESS_WORDS,
    FLASH_BLOCKS = 3,
    FLASH_SECTORS = (FLASH_AREA_WORDS + FLASH_SECTOR_WORDS - 1) / FLASH_SECTOR_WORDS
};

/* Reads a word. The address is below FLASH_WORDS. A word that an interrupted call left reads the same each time. */
uint32_t device_read(struct device *device, uint32_t at, uint32_t *word);

/* Programs words from an address on. All of them are blank. DEVICE_DONE: each was read back, and stays without power.
 * Else they may hold anything. No other word changes. */
uint32_t device_program(struct device *device, uint32_t at, const uint32_t *words, uint64_t count);

/* Erases a sector, at most 2 * FLASH_SECTORS. DEVICE_DONE: all its words were read back as blank. Else they may hold
 * anything. No other word changes. */
uint32_t device_erase(struct device *device, uint16_t sector);

/* Waits for a message, puts it into the buffer, and returns its size; 0 ends the session. */
uint64_t port_receive(uint8_t *message, uint64_t room);

/* Sends a message. */
void port_send(const uint8_t *message, uint64_t size);

/* Puts the 16 words of a page of the card's image into the buffer. Only card_make calls it. */
void port_page(uint16_t page, uint32_t *words, uint64_t count);

/* Erases the flash, and makes a card of this number of pages of an image, at most those of the board; the others are
 * zero. If it is interrupted no card starts: make it again, from a place of yours that says whether the card was made.
 * Never call it for a card in use: it gives all tries back. */
uint32_t card_make(uint64_t own, uint32_t pages);

/* Powers the card on, and answers blocks of T=1, at most this number of them. The answer to reset is yours to send: it
 * is 3B 80 81 31 FE 45 8B. */
uint32_t card_serve(uint64_t own, uint32_t blocks);

/* The same without T=1: each message is a command, and then its answer. */
uint32_t card_serve_commands(uint64_t own, uint32_t commands);

/* Leaves nothing in the flash but the card as it is: no old value of a PIN, and a free area, so that the next writes
 * are short. It takes as long as a move. Call it between two sessions; after CARD_START_LOST or CARD_START_FAULT call
 * it again. The card is the same, whatever interrupts it. */
uint32_t card_renew(uint64_t own);

#endif
