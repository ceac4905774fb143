/* The device of examples/chip with cuts: an order tears a later write, and another one reports a sum of all words. */
#define device_write write_whole
#include "device.c"
#undef device_write

enum { CUT = 5, SUM = 6 };

/* A set cut: the number of writes up to the torn one, and the words of it that are new. */
static uint32_t cut_at, cut_mask;

uint32_t device_write(struct device *device, uint16_t page, uint8_t first, const uint32_t *from, uint64_t count)
{
    if (!has_power || cut_at == 0 || --cut_at != 0)
        return write_whole(device, page, first, from, count);
    for (uint8_t i = 0; i < (uint8_t)count; i++)
        if ((cut_mask >> i & 1) != 0)
            write_whole(device, page, (uint8_t)(first + i), from + i, 1);
    device_power_off(device);
    return DEVICE_LOST;
}

static uint32_t number(const uint8_t *bytes, size_t size)
{
    uint32_t result = 0;

    for (size_t i = 0; i < size; i++)
        result = result << 8 | bytes[i];
    return result;
}

/* FNV-1a over words. */
static uint64_t sum_of_words(void)
{
    uint64_t sum = 14695981039346656037u;

    for (size_t i = 0; i < WORDS; i++)
        sum = (sum ^ words[i]) * 1099511628211u;
    return sum;
}

int32_t test_order(uint8_t order, const uint8_t *given, uint8_t *reply)
{
    if (order == CUT) {
        cut_at = number(given, 4);
        cut_mask = number(given + 4, 2);
        return 0;
    }
    if (order != SUM)
        return -1;
    uint64_t sum = sum_of_words();
    for (int i = 0; i < 8; i++)
        reply[i] = (uint8_t)(sum >> 8 * i);
    return 8;
}
