/* Calls of the library by lines: `on`, `free`, or `apdu` and a command in hexadecimal digits. */
#ifndef CALL_LINES_H
#define CALL_LINES_H

#include "soffitfennel.h"

#include <stdbool.h>
#include <stdint.h>
#include <stdio.h>
#include <stdlib.h>
#include <string.h>

enum { LINE = 1024 };

struct call {
    int32_t (*make)(soffitfennel_card **card, const struct call *call);
    uint8_t command[SOFFITFENNEL_COMMAND];
    size_t count;
};

static int32_t power_on(soffitfennel_card **card, const struct call *call)
{
    (void)call;
    return soffitfennel_power_on(card);
}

static int32_t free_space(soffitfennel_card **card, const struct call *call)
{
    uint16_t blocks, entries;

    (void)call;
    return soffitfennel_free_space(card, &blocks, &entries);
}

static int32_t command(soffitfennel_card **card, const struct call *call)
{
    static uint8_t answer[SOFFITFENNEL_ROOM];
    size_t size;

    return soffitfennel_command(card, call->command, call->count, answer, sizeof answer, &size);
}

/* The call of a line. A line that says none is that of a command without bytes, which is refused. */
static struct call read_call(const char *line)
{
    struct call call = {.make = command};
    const char *digits = line + strcspn(line, " ") + 1;
    unsigned byte;

    if (strncmp(line, "on", 2) == 0)
        call.make = power_on;
    else if (strncmp(line, "free", 4) == 0)
        call.make = free_space;
    else
        for (; call.count < sizeof call.command && sscanf(digits, "%2x", &byte) == 1; digits += 2)
            call.command[call.count++] = (uint8_t)byte;
    return call;
}

/* Makes the calls of all lines but the last, whose call it tells. */
static bool make_calls(soffitfennel_card **card, struct call *last)
{
    char line[LINE];

    for (bool is_later = false; fgets(line, sizeof line, stdin) != NULL; is_later = true) {
        if (is_later && last->make(card, last) != SOFFITFENNEL_DONE)
            return false;
        *last = read_call(line);
    }
    return true;
}

/* Makes the factory card. Its device has the words of the card, if it has one. */
static bool make_card(soffitfennel_card **card, size_t pages, bool has_device)
{
    size_t count = pages * (SOFFITFENNEL_WORDS / SOFFITFENNEL_PAGES), size;
    bool is_made = soffitfennel_factory(card, pages) == SOFFITFENNEL_DONE;

    if (is_made && has_device) {
        uint32_t *words = malloc(count * sizeof *words);
        is_made = words != NULL && soffitfennel_words(card, words, count, &size) == SOFFITFENNEL_DONE
                  && soffitfennel_attach(card, words, size, 0) == SOFFITFENNEL_DONE;
        free(words);
    }
    return is_made;
}

#endif
