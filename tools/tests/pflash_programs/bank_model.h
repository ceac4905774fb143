/* Two chips of 16 bits side by side as Intel's commands drive them, with what may go wrong in them. */
#ifndef BANK_MODEL_H
#define BANK_MODEL_H

#include <stdbool.h>
#include <stdint.h>

enum { MODEL_SECTOR_WORDS = 0x10000, MODEL_SECTORS = 8, MODEL_WORDS = MODEL_SECTORS * MODEL_SECTOR_WORDS };

/* What goes wrong: from 0 on, the command that it comes to, counted from now, or -1. */
struct model_faults {
    /* bits of the status that an erase or a program sets, in either half, and whether it is carried out */
    int32_t fails_at;
    uint32_t failure;
    bool is_carried_out;
    /* a word that a program or an erase leaves with other bits, without a word in the status */
    int32_t differs_at;
    uint32_t difference, differs_in;
    /* polls until a command is done, and how much later the upper half is; -1 for never */
    int32_t polls, later;
};

/* The name that the chips report, their set of commands, sectors, and bytes of a sector in each. */
struct model_interface {
    char name[3];
    uint32_t commands, sectors, sector_bytes;
};

extern uint32_t model_words[MODEL_WORDS];
extern struct model_faults model_faults;
extern struct model_interface model_interface;
/* programs, erases, and commands that the chips don't know */
extern uint32_t model_changes, model_strange;

/* Power goes and comes: all sectors are locked, and the chips show their words. */
void model_reset(void);

#endif
