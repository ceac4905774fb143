/* The chips of bank_model.h. */
#include "bank_model.h"
#include "bank.h"

#define BOTH(number) ((uint32_t)(number) << 16 | (uint32_t)(number))

enum { READY = 0x80, ERASE_FAILED = 0x20, PROGRAM_FAILED = 0x10, IS_LOCKED = 0x02 };

uint32_t model_words[MODEL_WORDS];
struct model_faults model_faults;
struct model_interface model_interface;
uint32_t model_changes, model_strange;

static bool is_unlocked[MODEL_SECTORS];
static enum { SHOWS_WORDS, SHOWS_STATUS, SHOWS_INTERFACE } mode;
/* the first half of a command of two */
static uint32_t begun;
static uint32_t status;
static int32_t left, left_above;

void model_reset(void)
{
    mode = SHOWS_WORDS;
    begun = status = 0;
    left = left_above = 0;
    for (uint32_t i = 0; i < MODEL_SECTORS; i++)
        is_unlocked[i] = false;
}

static bool is_due(int32_t *at)
{
    if (*at < 0)
        return false;
    return (*at)-- == 0;
}

static void begin_waiting(void)
{
    mode = SHOWS_STATUS;
    left = model_faults.polls;
    left_above = model_faults.later < 0 ? -1 : left + model_faults.later;
}

/* Carries a change out, of so many words. */
static void change(uint32_t at, uint32_t size, uint32_t word, uint32_t failed)
{
    bool fails = is_due(&model_faults.fails_at), differs = is_due(&model_faults.differs_at);

    model_changes++;
    begin_waiting();
    if (!is_unlocked[at / MODEL_SECTOR_WORDS]) {
        status |= BOTH(IS_LOCKED | failed);
        return;
    }
    status |= fails ? model_faults.failure : 0;
    for (uint32_t i = at; i < at + size && (!fails || model_faults.is_carried_out); i++)
        model_words[i] = size == 1 ? model_words[i] & word : word;
    if (differs)
        model_words[at + model_faults.differs_in] ^= model_faults.difference;
}

/* The second half of a command. */
static void end_command(uint32_t at, uint32_t word)
{
    uint32_t sector = at / MODEL_SECTOR_WORDS;

    if (begun == 0x40)
        change(at, 1, word, PROGRAM_FAILED);
    else if (begun == 0x20 && word == BOTH(0xD0))
        change(sector * MODEL_SECTOR_WORDS, MODEL_SECTOR_WORDS, 0xFFFFFFFF, ERASE_FAILED);
    else if (begun == 0x60 && word == BOTH(0xD0))
        is_unlocked[sector] = true;
    else
        status |= BOTH(ERASE_FAILED | PROGRAM_FAILED);
    begun = 0;
}

void bank_put(uint32_t at, uint32_t word)
{
    uint32_t command = word & 0xFF;

    if (at >= MODEL_WORDS || left != 0 || left_above != 0)
        model_strange++;
    else if (begun != 0)
        end_command(at, word);
    else if (word != BOTH(command))
        model_strange++;
    else if (command == 0xFF)
        mode = SHOWS_WORDS;
    else if (command == 0x98)
        mode = at == 0x55 ? SHOWS_INTERFACE : mode;
    else if (command == 0x50)
        status = 0;
    else if (command == 0x40 || command == 0x20 || command == 0x60)
        begun = command, mode = SHOWS_STATUS;
    else
        model_strange++;
}

static uint32_t told(uint32_t at)
{
    const struct model_interface *it = &model_interface;
    uint32_t regions[] = {it->sectors - 1, it->sectors - 1, it->sector_bytes / 256, it->sector_bytes / 256};

    if (at >= 0x10 && at < 0x13)
        return (uint32_t)(uint8_t)it->name[at - 0x10];
    if (at == 0x13 || at == 0x14)
        return it->commands >> 8 * (at - 0x13) & 0xFF;
    if (at >= 0x2D && at < 0x31)
        return regions[at - 0x2D] >> 8 * ((at - 0x2D) % 2) & 0xFF;
    return 0;
}

/* The status: each half is ready at its own time. */
static uint32_t shown_status(void)
{
    uint32_t ready = (left == 0 ? READY : 0) | (uint32_t)(left_above == 0 ? READY : 0) << 16;

    left -= left > 0 ? 1 : 0;
    left_above -= left_above > 0 ? 1 : 0;
    return ready | (ready == BOTH(READY) ? status : 0);
}

uint32_t bank_get(uint32_t at)
{
    if (at >= MODEL_WORDS)
        model_strange++;
    if (mode == SHOWS_INTERFACE)
        return BOTH(told(at));
    if (mode == SHOWS_STATUS || left != 0 || left_above != 0)
        return shown_status();
    return model_words[at % MODEL_WORDS];
}
