/* A device that kills its program before the write that KILLED_WRITE numbers, from 1 on. */
#include "soffitfennel.h"

#include <signal.h>
#include <stdlib.h>
#include <unistd.h>

int64_t soffitfennel_store(int32_t device, const void *bytes, size_t size, int64_t offset)
{
    static long made;
    const char *killed = getenv("KILLED_WRITE");

    if (killed != NULL && ++made == atol(killed))
        raise(SIGKILL);
    return pwrite(device, bytes, size, offset);
}
