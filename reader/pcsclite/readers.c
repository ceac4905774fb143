#include "readers.h"

#include <pthread.h>
#include <stdio.h>
#include <string.h>

enum { GRACE = 5000, TICK = 100 };

static pthread_mutex_t lock = PTHREAD_MUTEX_INITIALIZER;
static pthread_cond_t changed;
static pthread_once_t once = PTHREAD_ONCE_INIT;
struct settings settings;
struct reader readers[SLOTS];
struct context contexts[CONTEXTS];
struct handle handles[HANDLES];
static long last_id = 0x5AF10000;
static bool is_open;

/* ---- the lock */

/* A child of fork begins anew: its parent keeps the cards. */
static void begin_anew(void)
{
    pthread_mutex_init(&lock, NULL);
    memset(contexts, 0, sizeof contexts);
    memset(handles, 0, sizeof handles);
    memset(readers, 0, sizeof readers);
    is_open = false;
}

static void prepare(void)
{
    pthread_condattr_t attributes;

    pthread_condattr_init(&attributes);
    pthread_condattr_setclock(&attributes, CLOCK_MONOTONIC);
    pthread_cond_init(&changed, &attributes);
    pthread_condattr_destroy(&attributes);
    pthread_atfork(NULL, NULL, begin_anew);
}

void take(void)
{
    pthread_once(&once, prepare);
    pthread_mutex_lock(&lock);
}

LONG give(LONG code)
{
    pthread_mutex_unlock(&lock);
    return code;
}

void say_changed(void) { pthread_cond_broadcast(&changed); }

/* Waits for a change, for a tick at most: a card that was out comes back by time alone. */
void wait_for_change(void)
{
    int64_t end = now() + TICK;
    struct timespec until = {.tv_sec = end / 1000, .tv_nsec = end % 1000 * 1000000};

    pthread_cond_timedwait(&changed, &lock, &until);
}

/* ---- contexts, handles, readers */

struct context *context_of(SCARDCONTEXT id)
{
    for (int i = 0; id != 0 && i < CONTEXTS; i++)
        if (contexts[i].id == id)
            return &contexts[i];
    return NULL;
}

struct handle *handle_of(SCARDHANDLE id)
{
    for (int i = 0; id != 0 && i < HANDLES; i++)
        if (handles[i].id == id)
            return &handles[i];
    return NULL;
}

struct reader *reader_of(const char *name)
{
    for (int i = 0; i < settings.count; i++)
        if (strcmp(readers[i].name, name) == 0)
            return &readers[i];
    return NULL;
}

DWORD own_protocol(void) { return settings.has_t0 ? SCARD_PROTOCOL_T0 : SCARD_PROTOCOL_T1; }

/* Tells the connections of a reader what happened to its card. */
static void tell(struct reader *reader, LONG event)
{
    for (int i = 0; i < HANDLES; i++)
        if (handles[i].id != 0 && handles[i].reader == reader)
            handles[i].event = event;
    say_changed();
}

/* Looks whether the card is in the slot. Its connections are told that it was removed once it is back: until then each
 * call finds no card. */
bool is_there(struct reader *reader)
{
    bool is_so = slot_has_card(&reader->slot);

    if (is_so == reader->was_there)
        return is_so;
    reader->was_there = is_so;
    reader->events++;
    reader->protocol = 0;
    if (is_so)
        tell(reader, SCARD_W_REMOVED_CARD);
    say_changed();
    return is_so;
}

void close_readers(int count)
{
    for (int i = 0; i < count; i++)
        slot_close(&readers[i].slot);
    is_open = false;
}

/* Opens all cards, for the first context. */
bool open_readers(void)
{
    if (is_open)
        return true;
    if (!settings_read(&settings))
        return false;
    for (int i = 0; i < settings.count; i++) {
        struct reader *reader = &readers[i];
        *reader = (struct reader){.was_there = true};
        snprintf(reader->name, sizeof reader->name, "Soffitfennel %02d 00", i);
        if (!slot_open(&reader->slot, &settings, i)) {
            close_readers(i);
            return false;
        }
        reader->view = (struct view){.settings = &settings, .slot = &reader->slot};
        view_reset(&reader->view);
    }
    return is_open = true;
}

/* ---- power */

bool power_on(struct reader *reader)
{
    view_reset(&reader->view);
    reader->is_mute = slot_power_on(&reader->slot) != SOFFITFENNEL_DONE;
    is_there(reader);
    return !reader->is_mute;
}

/* A card that nobody was connected to for some seconds has lost its session. */
void end_old_session(struct reader *reader)
{
    if (reader->sharing == 0 && reader->slot.has_power && now() - reader->unused_since > GRACE) {
        slot_power_off(&reader->slot);
        reader->protocol = 0;
    }
}

/* Carries out a disposition. What isn't SCARD_LEAVE_CARD ends the session for all connections. */
void dispose(struct reader *reader, DWORD disposition)
{
    if (disposition == SCARD_LEAVE_CARD || !is_there(reader))
        return;
    if (disposition == SCARD_RESET_CARD)
        power_on(reader);
    else
        slot_power_off(&reader->slot);
    if (disposition != SCARD_RESET_CARD)
        reader->protocol = 0;
    tell(reader, SCARD_W_RESET_CARD);
}

bool is_disposition(DWORD it)
{
    return it == SCARD_LEAVE_CARD || it == SCARD_RESET_CARD || it == SCARD_UNPOWER_CARD || it == SCARD_EJECT_CARD;
}

long next_id(void) { return ++last_id; }
