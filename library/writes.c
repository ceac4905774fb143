/* The calls in which a card with a device can write. The proved code calls nothing but the heap: these functions call
 * it, take the device writes from it, and store them.
 *
 * - A command or a block that can compare a PIN has a charge, its first write. It is stored before the card runs.
 *   (The proved code runs no such order unless it has handed the charge out, and withholds the result of an order that
 *   begins with another write. Here nothing else may run before the charge is stored.)
 * - The card runs, and its log has the other writes. Each is stored, in order.
 * - Only then the caller gets the outcome and the answer.
 *
 * If the device does not take a write, the card runs no more, and no answer is handed out. */
#include "soffitfennel.h"

#include <stdbool.h>

/* A device write on its way: its bytes, and the offset of the first in the image. The proved code asks for the room. */
struct write {
    uint8_t bytes[SOFFITFENNEL_ROOM];
    size_t offset;
    size_t size;
};

/* Runs an order with bytes. */
typedef int32_t run_order(soffitfennel_card **card, const uint8_t *given, size_t count, uint8_t *out, size_t room,
                          size_t *size);

/* Tells the first write of such an order, if it can compare a PIN, and notes it. */
typedef int32_t first_of_order(soffitfennel_card **card, const uint8_t *given, size_t count, uint8_t *out, size_t room,
                               size_t *offset, size_t *size);

/* The proved code. */
int32_t soffitfennelcore_power_on(soffitfennel_card **card);
run_order soffitfennelcore_command, soffitfennelcore_block;
first_of_order soffitfennelcore_first_of_command, soffitfennelcore_first_of_block;
int32_t soffitfennelcore_next_write(soffitfennel_card **card, uint8_t *out, size_t room, size_t *offset, size_t *size);
int32_t soffitfennelcore_fall_behind(soffitfennel_card **card);
int32_t soffitfennelcore_device(soffitfennel_card **card, int32_t *device);

/* Overwrites bytes that may hold a PIN. A compiler leaves out the loop if nobody reads the bytes. To it, the last line
 * reads them. (With volatile bytes it wrote them one by one.) */
static void overwrite(uint8_t *bytes, size_t size)
{
    for (size_t i = 0; i < size; i++)
        bytes[i] = 0;
    __asm__ volatile("" : : "r"(bytes) : "memory");
}

static bool has_device(soffitfennel_card **card)
{
    uint32_t state;

    return soffitfennel_state(card, &state) == SOFFITFENNEL_DONE && (state & SOFFITFENNEL_HAS_DEVICE) != 0;
}

/* Stores a write. If the device does not take it, the card runs no more. */
static bool store(soffitfennel_card **card, const struct write *write)
{
    int32_t device = 0;

    soffitfennelcore_device(card, &device);
    if (soffitfennel_store(device, write->bytes, write->size, (int64_t)write->offset) == (int64_t)write->size)
        return true;
    soffitfennelcore_fall_behind(card);
    return false;
}

/* Stores what a call wrote. Returns the outcome of the call, or UNSTORED. */
static int32_t store_writes(soffitfennel_card **card, int32_t outcome)
{
    struct write write;
    int32_t taken;

    while ((taken = soffitfennelcore_next_write(card, write.bytes, sizeof write.bytes, &write.offset, &write.size))
               == SOFFITFENNEL_DONE
           && write.size > 0)
        if (!store(card, &write))
            break;
    bool is_stored = taken == SOFFITFENNEL_DONE && write.size == 0;
    overwrite(write.bytes, SOFFITFENNEL_WRITE);
    return is_stored ? outcome : SOFFITFENNEL_UNSTORED;
}

/* Stores the charge of an order, if it has one. Only then the order may run. Returns DONE, or why it may not. */
static int32_t store_charge(first_of_order *first_of, soffitfennel_card **card, const uint8_t *given, size_t count)
{
    struct write charge;
    int32_t outcome = first_of(card, given, count, charge.bytes, sizeof charge.bytes, &charge.offset, &charge.size);

    if (outcome == SOFFITFENNEL_DONE && charge.size > 0 && !store(card, &charge))
        outcome = SOFFITFENNEL_UNSTORED;
    overwrite(charge.bytes, charge.size);
    return outcome;
}

/* Runs an order with bytes on a card with a device: the charge, the order, the other writes, and then its bytes. */
static int32_t exchange(run_order *run, first_of_order *first_of, soffitfennel_card **card, const uint8_t *given,
                        size_t count, uint8_t *out, size_t *size)
{
    uint8_t own[SOFFITFENNEL_ROOM];
    size_t came;
    int32_t outcome;

    *size = 0;
    outcome = store_charge(first_of, card, given, count);
    if (outcome != SOFFITFENNEL_DONE)
        return outcome;
    outcome = run(card, given, count, own, sizeof own, &came);
    outcome = store_writes(card, outcome);
    if (outcome == SOFFITFENNEL_DONE) {
        for (size_t i = 0; i < came; i++)
            out[i] = own[i];
        *size = came;
    }
    overwrite(own, sizeof own);
    return outcome;
}

/* The same on any card. */
static int32_t perform(run_order *run, first_of_order *first_of, soffitfennel_card **card, const uint8_t *given,
                       size_t count, uint8_t *out, size_t room, size_t *size)
{
    if (room < SOFFITFENNEL_ROOM || !has_device(card))
        return run(card, given, count, out, room, size);
    return exchange(run, first_of, card, given, count, out, size);
}

int32_t soffitfennel_power_on(soffitfennel_card **card)
{
    int32_t outcome = soffitfennelcore_power_on(card);

    return has_device(card) ? store_writes(card, outcome) : outcome;
}

int32_t soffitfennel_command(soffitfennel_card **card, const uint8_t *command, size_t count, uint8_t *answer,
                             size_t room, size_t *size)
{
    return perform(soffitfennelcore_command, soffitfennelcore_first_of_command, card, command, count, answer, room,
                   size);
}

int32_t soffitfennel_block(soffitfennel_card **card, const uint8_t *block, size_t count, uint8_t *reply, size_t room,
                           size_t *size)
{
    return perform(soffitfennelcore_block, soffitfennelcore_first_of_block, card, block, count, reply, room, size);
}
