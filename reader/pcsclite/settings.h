/* What tools/with-card tells a program's libpcsclite, by environment variables. */
#ifndef SETTINGS_H
#define SETTINGS_H

#include <stdbool.h>
#include <stddef.h>
#include <stdint.h>

enum { SLOTS = 4, MOST_ATR = 33, PINS = 8 };

struct settings {
    const char *paths[SLOTS]; /* SOFFITFENNEL_CARD_0 to _3: the cards' files */
    int count;
    bool is_fresh;            /* SOFFITFENNEL_FRESH: an empty file becomes the factory card */
    const char *session;      /* SOFFITFENNEL_SESSION: how many device writes the processes of the session made */
    const char *log;          /* SOFFITFENNEL_LOG: the session of the first card as a test */
    uint32_t cut_number;      /* SOFFITFENNEL_CUT: number and mask of the first card's power cut; 0: none */
    uint16_t cut_mask;
    uint8_t atr[MOST_ATR];    /* SOFFITFENNEL_ATR */
    size_t atr_size;
    bool has_t0, has_translation, has_uicc; /* SOFFITFENNEL_VIEW: any of the letters t, o, u */
    uint8_t pins[256];        /* SOFFITFENNEL_PINS: the card's PIN for a reference, such as "81=2,0A=8"; 0: as it is */
};

/* Reads the settings. False: one is missing or wrong, and standard error says which. */
bool settings_read(struct settings *settings);

#endif
