/* The card over a device of yours. You write the functions in the middle, and call those at the end.
 *
 * The card asks for nothing else but memcpy, memmove and memset: it has no heap and no static data. Sizes have 64 bits
 * on each processor. tools/chip refuses a header whose numbers have other widths than the proved code's. */
#ifndef CARD_DEVICE_H
#define CARD_DEVICE_H

#include <stdbool.h>
#include <stdint.h>

/* A device as the card stores it: a number or an address of yours, which the card never looks behind. */
struct device {
    uint64_t own;
};

/* The results of calls of the device. DEVICE_LOST: power failed in the call, or was off. It is no answer while there is
 * power. DEVICE_FAULT, or any other number: the device failed, and still has power. */
enum { DEVICE_DONE = 0, DEVICE_LOST = 1, DEVICE_FAULT = 2 };

/* The results of the card's functions. Those from CARD_NO_PLACE on are of card_start, card_block and card_end alone.
 * After CARD_NO_ROOM and CARD_OUT_OF_TURN nothing has changed. */
enum {
    CARD_ENDED = 0,
    CARD_LOST = 1,
    CARD_WORN_OUT = 2,
    CARD_START_LOST = 3,
    CARD_START_FAULT = 4,
    CARD_BAD_JOURNAL = 5,
    CARD_DAMAGED = 6,
    CARD_NO_PLACE = 7,
    CARD_NO_ROOM = 8,
    CARD_OUT_OF_TURN = 9
};

/* A card between two calls. It begins with zero; only the card's functions change it. */
struct card {
    uint64_t own;
};

/* The bytes of a card's place, and of the longest reply. */
enum { CARD_BYTES = 1376, REPLY_BYTES = 258 };

/* The number of pages of 16 words: 1024 to 4096, always the same. */
uint16_t device_pages(const struct device *device);

/* Reads a word. The address is below 16 times the number of pages. */
uint32_t device_read(struct device *device, uint16_t at, uint32_t *word);

/* Writes 1 to 16 words of one page, from its word `first` on. DEVICE_DONE: all are there, and stay without power. Else
 * each of them is the old word or the new one, and a read returns the same one each time. No other word changes. */
uint32_t device_write(struct device *device, uint16_t page, uint8_t first, const uint32_t *words, uint64_t count);

/* Compares 8 bytes of a PIN with those shown, in a time that doesn't depend on them. The secret is below 16. */
uint32_t device_compare(struct device *device, uint8_t secret, const uint8_t *kept, const uint8_t *shown, bool *equal);

/* Switches power on, if a switch is yours. It returns true. Words stay. */
bool device_light(struct device *device);

/* Switches power off. Until device_light, read, write and compare then return DEVICE_LOST. Words stay. */
void device_power_off(struct device *device);

/* Waits for a message, puts it into the buffer, and returns its size; 0 ends the session. */
uint64_t port_receive(uint8_t *message, uint64_t room);

/* Sends a message. */
void port_send(const uint8_t *message, uint64_t size);

/* Powers the card on, and answers blocks of T=1, at most this number of them. The answer to reset is yours to send: it
 * is 3B 80 81 31 FE 45 8B. */
uint32_t card_serve(uint64_t own, uint32_t blocks);

/* The same without T=1: each message is a command, and then its answer. */
uint32_t card_serve_commands(uint64_t own, uint32_t commands);

/* The card by calls, for a main loop of your own. Then you write port_place and port_place_back below, and neither
 * port_receive nor port_send. Let the linker drop unused sections (--gc-sections).
 *
 * Powers the card of a device on. CARD_OUT_OF_TURN: it is on already. CARD_NO_PLACE: the device still has power. */
uint32_t card_start(struct card *card, uint64_t own);

/* Sends a block of T=1 to the card. The reply has REPLY_BYTES at most, else CARD_NO_ROOM. CARD_LOST: power was lost in
 * this block or before, and there is no reply; card_end is next. CARD_OUT_OF_TURN: there is no card. */
uint32_t card_block(struct card *card, const uint8_t *block, uint64_t size, uint8_t *reply, uint64_t room,
                    uint64_t *reply_size);

/* Ends the card, and switches its device off. CARD_OUT_OF_TURN: there is no card. */
uint32_t card_end(struct card *card);

/* Gives the card its place: CARD_BYTES bytes, aligned to 8, that nothing else uses until they come back. Null: there is
 * none. card_start calls it once. */
void *port_place(uint32_t size, uint32_t align);

/* Takes the place back. card_end calls it once. */
void port_place_back(void *place);

#endif
