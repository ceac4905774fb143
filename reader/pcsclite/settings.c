#include "settings.h"
#include "soffitfennel.h"

#include <stdio.h>
#include <stdlib.h>
#include <string.h>

/* (a program with another user's rights is given nothing) */
static const char *value_of(const char *name) { return secure_getenv(name); }

static bool complain(const char *what)
{
    fprintf(stderr, "soffitfennel: %s; tools/with-card starts a program with all settings\n", what);
    return false;
}

static bool read_cut(struct settings *settings)
{
    const char *text = value_of("SOFFITFENNEL_CUT");
    unsigned number, mask;

    if (text == NULL)
        return true;
    if (sscanf(text, "%6u %4x", &number, &mask) != 2 || number < 1 || number > SOFFITFENNEL_NUMBER)
        return complain("SOFFITFENNEL_CUT is no number and mask");
    settings->cut_number = number, settings->cut_mask = (uint16_t)mask;
    return true;
}

static bool read_atr(struct settings *settings)
{
    const char *text = value_of("SOFFITFENNEL_ATR");

    if (text == NULL)
        text = settings->has_t0 ? "3B00" : "3B808131FE458B";
    for (; *text != '\0'; text += 2) {
        if (settings->atr_size == MOST_ATR || sscanf(text, "%2hhx", &settings->atr[settings->atr_size]) != 1
            || text[1] == '\0')
            return complain("SOFFITFENNEL_ATR is no answer to reset");
        settings->atr_size++;
    }
    return true;
}

static bool read_pins(struct settings *settings)
{
    const char *text = value_of("SOFFITFENNEL_PINS");
    unsigned reference, pin;
    int size = 0;

    for (text = text == NULL ? "81=2,0A=8" : text; *text != '\0'; text += size) {
        if (sscanf(text, "%2x=%1u%n", &reference, &pin, &size) != 2 || pin < 1 || pin > PINS)
            return complain("SOFFITFENNEL_PINS is no table of references");
        settings->pins[reference] = (uint8_t)pin;
        size += text[size] == ',';
    }
    return true;
}

bool settings_read(struct settings *settings)
{
    char name[] = "SOFFITFENNEL_CARD_0";
    const char *view = value_of("SOFFITFENNEL_VIEW");

    *settings = (struct settings){0};
    while (settings->count < SLOTS && (settings->paths[settings->count] = value_of(name)) != NULL) {
        settings->count++;
        name[sizeof name - 2]++;
    }
    settings->is_fresh = value_of("SOFFITFENNEL_FRESH") != NULL;
    settings->session = value_of("SOFFITFENNEL_SESSION");
    settings->log = value_of("SOFFITFENNEL_LOG");
    settings->has_t0 = view != NULL && strchr(view, 't') != NULL;
    settings->has_translation = view != NULL && strchr(view, 'o') != NULL;
    settings->has_uicc = view != NULL && strchr(view, 'u') != NULL;
    if (settings->count == 0)
        return complain("no card is named");
    return read_cut(settings) && read_atr(settings) && read_pins(settings);
}
