/* The readers of a process, and who is connected to them. One lock guards all. */
#ifndef READERS_H
#define READERS_H

#include "view.h"

#include <winscard.h>

enum { CONTEXTS = 64, HANDLES = 64, EXCLUSIVELY = -1 };

struct reader {
    char name[32];
    struct slot slot;
    struct view view;
    bool was_there;      /* whether the card was in the slot at the last look */
    bool is_mute;
    uint32_t events;     /* how often the card came or went */
    DWORD protocol;      /* of the powered card; 0 before the first connection */
    int sharing;         /* connections, or EXCLUSIVELY */
    SCARDHANDLE owner;   /* of the transaction; 0: there is none */
    int depth;
    int64_t unused_since; /* the last connection's end */
};

struct context {
    SCARDCONTEXT id;
    bool is_cancelled;
};

struct handle {
    SCARDHANDLE id;
    SCARDCONTEXT context;
    struct reader *reader;
    LONG event; /* SCARD_W_RESET_CARD or SCARD_W_REMOVED_CARD, until SCardReconnect */
};

extern struct settings settings;
extern struct reader readers[SLOTS];
extern struct context contexts[CONTEXTS];
extern struct handle handles[HANDLES];

/* Takes the lock; gives it back, and the code that a call returns. */
void take(void);
LONG give(LONG code);

/* Tells the calls that wait that something has changed. */
void say_changed(void);

/* Waits for a change, for a tick at most: a card that was out comes back by time alone. */
void wait_for_change(void);

/* A number that no context and no handle has had. */
long next_id(void);

/* What has this number or name, or NULL. */
struct context *context_of(SCARDCONTEXT id);
struct handle *handle_of(SCARDHANDLE id);
struct reader *reader_of(const char *name);

/* The protocol that the readers show: T=1, or what the settings say. */
DWORD own_protocol(void);

/* Opens all cards, for the first context; ends the first so many. */
bool open_readers(void);
void close_readers(int count);

/* Looks whether the card is in the slot. Its connections are told that it was removed once it is back: until then each
 * call finds no card. */
bool is_there(struct reader *reader);

/* Switches power on, after power off if it is on. */
bool power_on(struct reader *reader);

/* Ends the session of a card that nobody was connected to for some seconds. */
void end_old_session(struct reader *reader);

/* Carries out a disposition. What isn't SCARD_LEAVE_CARD ends the session for all connections. */
void dispose(struct reader *reader, DWORD disposition);
bool is_disposition(DWORD it);

#endif
