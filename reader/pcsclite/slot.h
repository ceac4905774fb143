/* A reader's slot: the card in a file, which this process alone has while the slot is open. */
#ifndef SLOT_H
#define SLOT_H

#include "settings.h"
#include "soffitfennel.h"

struct slot {
    soffitfennel_card *card;
    const char *path;
    int file, log; /* log: -1 where nothing is recorded */
    bool has_power, is_broken;
    int64_t gone_until; /* a card that lost power is out until this time, in milliseconds */
};

enum fault { FAULT_CUT = 1, FAULT_LOSE = 2, FAULT_GARBLE = 3, FAULT_CLEAR = 4 };

/* The time, in milliseconds. */
int64_t now(void);

/* Opens a card; waits for another process that has it, some seconds at most. False: standard error says why. */
bool slot_open(struct slot *slot, const struct settings *settings, int number);

/* Ends a card with power off. */
void slot_close(struct slot *slot);

/* Whether the card is in the slot. */
bool slot_has_card(struct slot *slot);

/* Switches power on, after power off if it is on; and off. The card's outcome. */
int32_t slot_power_on(struct slot *slot);
void slot_power_off(struct slot *slot);

/* Sends a command; the answer has room for SOFFITFENNEL_ROOM bytes. The card's outcome. */
int32_t slot_command(struct slot *slot, const uint8_t *command, size_t count, uint8_t *answer, size_t *size);

/* Sets or clears faults. The card's outcome. */
int32_t slot_fault(struct slot *slot, enum fault fault, uint32_t number, uint16_t mask);

/* Whether a PIN is enabled. */
bool slot_has_pin(const struct slot *slot, int pin);

#endif
