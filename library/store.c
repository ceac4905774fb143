/* The device of a card as a file: its number is a descriptor. A program may have a soffitfennel_store of its own. */
#include "soffitfennel.h"

#include <errno.h>
#include <unistd.h>

int64_t soffitfennel_store(int32_t device, const void *bytes, size_t size, int64_t offset)
{
    size_t stored = 0;

    while (stored < size) {
        ssize_t now = pwrite(device, (const char *)bytes + stored, size - stored, (off_t)offset + (off_t)stored);
        if (now < 0 && errno == EINTR)
            continue;
        if (now <= 0)
            return -1;
        stored += (size_t)now;
    }
    return (int64_t)size;
}
