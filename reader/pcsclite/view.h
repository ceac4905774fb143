/* Other views of the card, all off by default. They are the reader's, not the card's, and nothing of them is proved. */
#ifndef VIEW_H
#define VIEW_H

#include "slot.h"

enum { MOST_NAMES = 8, MOST_NAME = 16 };

struct name { uint8_t size, bytes[MOST_NAME]; };

struct view {
    const struct settings *settings;
    struct slot *slot;
    uint8_t kept[SOFFITFENNEL_ROOM]; /* T=0: an answer that waits for GET RESPONSE, with its status */
    size_t kept_at, kept_size;
    struct name names[MOST_NAMES], application; /* UICC: names in EF.DIR, and the current application */
    int name_count;                             /* -1: EF.DIR isn't read yet */
    uint8_t template[SOFFITFENNEL_ROOM];        /* UICC: the template of the current DF */
    size_t template_size;
};

/* What power-on leaves of a view. */
void view_reset(struct view *view);

/* Sends a command as the client sees the card. The card's outcome. */
int32_t view_command(struct view *view, const uint8_t *command, size_t count, uint8_t *answer, size_t *size);

#endif
