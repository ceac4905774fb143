/* The version of the library, and the names of outcomes. */
#include "soffitfennel.h"

const char *soffitfennel_version(void) { return SOFFITFENNEL_VERSION; }

const char *soffitfennel_outcome_name(int32_t outcome)
{
    switch (outcome) {
    case SOFFITFENNEL_DONE:
        return "DONE";
    case SOFFITFENNEL_MUTE:
        return "MUTE";
    case SOFFITFENNEL_DARK:
        return "DARK";
    case SOFFITFENNEL_LOST:
        return "LOST";
    case SOFFITFENNEL_SIZE:
        return "SIZE";
    case SOFFITFENNEL_MEMORY:
        return "MEMORY";
    case SOFFITFENNEL_NO_CARD:
        return "NO_CARD";
    case SOFFITFENNEL_UNSTORED:
        return "UNSTORED";
    case SOFFITFENNEL_ABSENT:
        return "ABSENT";
    case SOFFITFENNEL_SEND:
        return "SEND";
    case SOFFITFENNEL_RESYNCHED:
        return "RESYNCHED";
    case SOFFITFENNEL_BAD_ANSWER:
        return "BAD_ANSWER";
    case SOFFITFENNEL_OUT_OF_TURN:
        return "OUT_OF_TURN";
    default:
        return "UNKNOWN";
    }
}
