/* The messages of tools/serial, between a card and the serial port of its board:
 *
 * To the card: an order (1 byte), a length (2 bytes, most significant first), and so many bytes.
 * From the card: an outcome (1 byte), a length, and so many bytes.
 */
#ifndef MESSAGES_H
#define MESSAGES_H

#include <stdbool.h>
#include <stdint.h>

enum { OFF = 0, ON = 1, BLOCK = 2, FREE = 3, USE = 4 };
enum { DONE = 0, MUTE = 1, DARK = 2, SIZE = 4 };

/* Sends an outcome with its bytes. */
void tell(uint8_t outcome, const uint8_t *reply, uint32_t size);

/* Takes the bytes of an order, and drops those that have no room. It returns their number. */
uint32_t take(uint8_t *given, uint32_t room);

/* Carries out an order that needs no card and changes none, if it is one. */
bool is_done_aside(uint8_t order, const uint8_t *given);

/* Begins on the board, and makes a new memory a card. */
void begin(void);

#endif
