/* libpcsclite.so.1 with the card inside: a program's own readers, without pcscd. Calls answer as pcsc-lite's do.
 *
 * A call that waits (SCardGetStatusChange; behind another one's transaction SCardConnect, SCardTransmit and others too)
 * gives the lock away meanwhile. So it looks up contexts and handles again.
 */
#include "readers.h"

#include <reader.h>
#include <stdio.h>
#include <stdlib.h>
#include <string.h>
#include <winscard.h>

#define API __attribute__((visibility("default")))

enum { FEATURES = 3400 };

API const SCARD_IO_REQUEST g_rgSCardT0Pci = {SCARD_PROTOCOL_T0, sizeof(SCARD_IO_REQUEST)};
API const SCARD_IO_REQUEST g_rgSCardT1Pci = {SCARD_PROTOCOL_T1, sizeof(SCARD_IO_REQUEST)};
API const SCARD_IO_REQUEST g_rgSCardRawPci = {SCARD_PROTOCOL_RAW, sizeof(SCARD_IO_REQUEST)};

/* ---- contexts */

API LONG SCardEstablishContext(DWORD scope, LPCVOID one, LPCVOID two, LPSCARDCONTEXT id)
{
    (void)one, (void)two;
    if (id == NULL)
        return SCARD_E_INVALID_PARAMETER;
    *id = 0;
    if (scope > SCARD_SCOPE_GLOBAL)
        return SCARD_E_INVALID_VALUE;
    take();
    for (int i = 0; i < CONTEXTS; i++) {
        if (contexts[i].id != 0)
            continue;
        if (!open_readers())
            return give(SCARD_E_NO_SERVICE);
        contexts[i] = (struct context){.id = next_id()};
        *id = contexts[i].id;
        return give(SCARD_S_SUCCESS);
    }
    return give(SCARD_E_NO_MEMORY);
}

static void let_go(struct handle *handle)
{
    struct reader *reader = handle->reader;

    if (reader->owner == handle->id)
        reader->owner = 0, reader->depth = 0;
    reader->sharing = reader->sharing == EXCLUSIVELY ? 0 : reader->sharing - 1;
    reader->unused_since = now();
    *handle = (struct handle){0};
    say_changed();
}

API LONG SCardReleaseContext(SCARDCONTEXT id)
{
    take();
    struct context *context = context_of(id);

    if (context == NULL)
        return give(SCARD_E_INVALID_HANDLE);
    for (int i = 0; i < HANDLES; i++)
        if (handles[i].id != 0 && handles[i].context == id) {
            if (handles[i].event == 0)
                dispose(handles[i].reader, SCARD_RESET_CARD);
            let_go(&handles[i]);
        }
    *context = (struct context){0};
    bool is_last = true;
    for (int i = 0; i < CONTEXTS; i++)
        is_last = is_last && contexts[i].id == 0;
    if (is_last)
        close_readers(settings.count);
    say_changed();
    return give(SCARD_S_SUCCESS);
}

API LONG SCardIsValidContext(SCARDCONTEXT id)
{
    take();
    return give(context_of(id) != NULL ? SCARD_S_SUCCESS : SCARD_E_INVALID_HANDLE);
}

API LONG SCardCancel(SCARDCONTEXT id)
{
    take();
    struct context *context = context_of(id);

    if (context == NULL)
        return give(SCARD_E_INVALID_HANDLE);
    context->is_cancelled = true;
    say_changed();
    return give(SCARD_S_SUCCESS);
}

/* ---- connections */

static bool is_sharing(DWORD mode)
{
    return mode == SCARD_SHARE_SHARED || mode == SCARD_SHARE_EXCLUSIVE || mode == SCARD_SHARE_DIRECT;
}

/* Powers the card where that isn't done, and finds its protocol. */
static LONG negotiate(struct reader *reader, DWORD share, DWORD protocols)
{
    if (share == SCARD_SHARE_DIRECT)
        return SCARD_S_SUCCESS;
    if (!is_there(reader))
        return SCARD_E_NO_SMARTCARD;
    if (!reader->slot.has_power && !power_on(reader))
        return is_there(reader) ? SCARD_W_UNRESPONSIVE_CARD : SCARD_E_NO_SMARTCARD;
    if ((protocols & own_protocol()) == 0)
        return SCARD_E_PROTO_MISMATCH;
    reader->protocol = own_protocol();
    return SCARD_S_SUCCESS;
}

/* Takes a share of a reader. */
static LONG share_reader(struct reader *reader, DWORD share, SCARDHANDLE owner)
{
    if (share == SCARD_SHARE_EXCLUSIVE) {
        if (reader->sharing != 0)
            return SCARD_E_SHARING_VIOLATION;
        reader->sharing = EXCLUSIVELY;
        reader->owner = owner, reader->depth = 1;
    } else
        reader->sharing++;
    say_changed();
    return SCARD_S_SUCCESS;
}

/* Puts a new connection into a place that is free. */
static LONG add_handle(const struct handle *made)
{
    for (int i = 0; i < HANDLES; i++)
        if (handles[i].id == 0) {
            handles[i] = *made;
            return SCARD_S_SUCCESS;
        }
    return SCARD_E_NO_MEMORY;
}

static LONG connect_to(struct reader *reader, DWORD share, DWORD protocols, struct handle *made)
{
    made->reader = reader;
    made->id = next_id();
    if (reader->sharing == EXCLUSIVELY)
        return SCARD_E_SHARING_VIOLATION;
    while (reader->owner != 0)
        wait_for_change();
    if (context_of(made->context) == NULL)
        return SCARD_E_INVALID_HANDLE;
    end_old_session(reader);
    LONG code = negotiate(reader, share, protocols);
    if (code == SCARD_S_SUCCESS)
        code = add_handle(made);
    if (code == SCARD_S_SUCCESS && (code = share_reader(reader, share, made->id)) != SCARD_S_SUCCESS)
        *handle_of(made->id) = (struct handle){0};
    return code;
}

API LONG SCardConnect(SCARDCONTEXT context, LPCSTR name, DWORD share, DWORD protocols, LPSCARDHANDLE id, LPDWORD active)
{
    const DWORD known = SCARD_PROTOCOL_T0 | SCARD_PROTOCOL_T1 | SCARD_PROTOCOL_RAW | SCARD_PROTOCOL_T15;
    struct handle made = {.context = context};

    if (id == NULL || active == NULL)
        return SCARD_E_INVALID_PARAMETER;
    *id = 0;
    if (name == NULL)
        return SCARD_E_UNKNOWN_READER;
    if (strlen(name) > MAX_READERNAME)
        return SCARD_E_INVALID_VALUE;
    take();
    struct reader *reader = reader_of(name);
    LONG code = context_of(context) == NULL ? SCARD_E_INVALID_HANDLE
                : share != SCARD_SHARE_DIRECT && (protocols & known) == 0 ? SCARD_E_PROTO_MISMATCH
                : !is_sharing(share) ? SCARD_E_INVALID_VALUE
                : reader == NULL ? SCARD_E_UNKNOWN_READER
                                 : connect_to(reader, share, protocols, &made);
    if (code == SCARD_S_SUCCESS) {
        *id = made.id;
        *active = reader->protocol;
    }
    return give(code);
}

/* Whether another connection has the reader for itself. */
static bool is_taken(const struct handle *handle)
{
    return handle->reader->owner != 0 && handle->reader->owner != handle->id;
}

/* A connection once no other one has the reader for itself; NULL with an invalid handle. */
static struct handle *turn_of(SCARDHANDLE id)
{
    struct handle *handle = handle_of(id);

    while (handle != NULL && is_taken(handle)) {
        wait_for_change();
        handle = handle_of(id);
    }
    return handle;
}

/* What a connection's calls are told of its card: nothing, or that it was reset or removed. */
static LONG event_of(struct handle *handle)
{
    if (handle == NULL)
        return SCARD_E_INVALID_HANDLE;
    is_there(handle->reader);
    return handle->event;
}

/* Changes how a connection shares its reader. */
static void share_anew(struct handle *handle, DWORD share)
{
    struct reader *reader = handle->reader;

    if (share == SCARD_SHARE_EXCLUSIVE && reader->sharing != EXCLUSIVELY) {
        reader->sharing = EXCLUSIVELY;
        reader->owner = handle->id, reader->depth = 1;
    } else if (share != SCARD_SHARE_EXCLUSIVE && reader->sharing == EXCLUSIVELY) {
        reader->sharing = 1;
        reader->owner = 0, reader->depth = 0;
    }
    say_changed();
}

/* Whether a connection may share its reader so. */
static bool may_share(const struct handle *handle, DWORD share)
{
    return share != SCARD_SHARE_EXCLUSIVE || handle->reader->sharing == EXCLUSIVELY || handle->reader->sharing == 1;
}

/* Powers the card anew where that is asked for, and finds its protocol. */
static LONG begin_again(struct reader *reader, DWORD share, DWORD protocols, DWORD initialization)
{
    if (initialization != SCARD_LEAVE_CARD) {
        if (!is_there(reader))
            return SCARD_E_NO_SMARTCARD;
        if (initialization == SCARD_UNPOWER_CARD)
            slot_power_off(&reader->slot);
        dispose(reader, SCARD_RESET_CARD);
    }
    return negotiate(reader, share, protocols);
}

API LONG SCardReconnect(SCARDHANDLE id, DWORD share, DWORD protocols, DWORD initialization, LPDWORD active)
{
    if (active == NULL)
        return SCARD_E_INVALID_PARAMETER;
    take();
    struct handle *handle = turn_of(id);

    if (handle == NULL)
        return give(SCARD_E_INVALID_HANDLE);
    if (!is_disposition(initialization) || initialization == SCARD_EJECT_CARD)
        return give(SCARD_E_INVALID_VALUE);
    if (!is_sharing(share))
        return give(SCARD_E_INVALID_VALUE);
    LONG code = begin_again(handle->reader, share, protocols, initialization);
    while (code == SCARD_S_SUCCESS && handle != NULL && !may_share(handle, share)) {
        wait_for_change();
        handle = turn_of(id);
    }
    if (handle == NULL)
        return give(SCARD_E_INVALID_HANDLE);
    if (code == SCARD_S_SUCCESS) {
        share_anew(handle, share);
        handle->event = 0;
        *active = handle->reader->protocol;
    }
    return give(code);
}

API LONG SCardDisconnect(SCARDHANDLE id, DWORD disposition)
{
    take();
    if (handle_of(id) != NULL && !is_disposition(disposition))
        return give(SCARD_E_INVALID_VALUE);
    struct handle *handle = turn_of(id);
    if (handle == NULL)
        return give(SCARD_E_INVALID_HANDLE);
    dispose(handle->reader, disposition);
    let_go(handle);
    return give(SCARD_S_SUCCESS);
}

API LONG SCardBeginTransaction(SCARDHANDLE id)
{
    take();
    struct handle *handle = turn_of(id);
    LONG code = event_of(handle);

    if (code == SCARD_S_SUCCESS) {
        handle->reader->owner = id;
        handle->reader->depth++;
    }
    return give(code);
}

API LONG SCardEndTransaction(SCARDHANDLE id, DWORD disposition)
{
    take();
    struct handle *handle = handle_of(id);

    if (handle == NULL)
        return give(SCARD_E_INVALID_HANDLE);
    if (!is_disposition(disposition))
        return give(SCARD_E_INVALID_VALUE);
    if (is_taken(handle))
        return give(SCARD_E_SHARING_VIOLATION);
    struct reader *reader = handle->reader;
    LONG code = event_of(handle);
    if (code == SCARD_S_SUCCESS)
        dispose(reader, disposition);
    if (reader->owner == id && --reader->depth == 0)
        reader->owner = 0;
    say_changed();
    return give(code);
}

/* ---- status */

/* Copies to a caller's buffer, which may be asked for its size, or be allocated. */
static LONG copy(const void *from, size_t size, void *to, LPDWORD room)
{
    if (room == NULL)
        return SCARD_S_SUCCESS;
    DWORD had = *room;
    *room = size;
    if (to == NULL)
        return SCARD_S_SUCCESS;
    if (had == SCARD_AUTOALLOCATE) {
        void *made = malloc(size);
        if (made != NULL)
            memcpy(made, from, size);
        *(void **)to = made;
        return made == NULL ? SCARD_E_NO_MEMORY : SCARD_S_SUCCESS;
    }
    if (had < size)
        return SCARD_E_INSUFFICIENT_BUFFER;
    memcpy(to, from, size);
    return SCARD_S_SUCCESS;
}

API LONG SCardStatus(SCARDHANDLE id, LPSTR name, LPDWORD name_room, LPDWORD state, LPDWORD protocol, LPBYTE atr,
                     LPDWORD atr_room)
{
    take();
    struct handle *handle = turn_of(id);
    LONG code = event_of(handle);

    if (code != SCARD_S_SUCCESS)
        return give(code);
    struct reader *reader = handle->reader;
    bool has_power = reader->slot.has_power;
    if (state != NULL)
        *state = (reader->events & 0xFFFF) << 16
                 | (!is_there(reader) ? SCARD_ABSENT : SCARD_PRESENT | (has_power ? SCARD_POWERED : 0)
                    | (has_power ? SCARD_NEGOTIABLE : 0));
    if (protocol != NULL)
        *protocol = reader->protocol;
    code = copy(reader->name, strlen(reader->name) + 1, name, name_room);
    LONG second = copy(settings.atr, is_there(reader) ? settings.atr_size : 0, atr, atr_room);
    return give(code == SCARD_S_SUCCESS ? second : code);
}

/* What a reader's state is, and whether the caller knows another one. */
static void look(struct reader *reader, SCARD_READERSTATE *state)
{
    bool is_present = is_there(reader);
    DWORD known = state->dwCurrentState & 0xFFFF, seen = is_present ? SCARD_STATE_PRESENT : SCARD_STATE_EMPTY;
    DWORD counter = reader->events & 0xFFFF, known_counter = state->dwCurrentState >> 16 & 0xFFFF;
    bool is_new = known == SCARD_STATE_UNAWARE || (known & (SCARD_STATE_UNKNOWN | SCARD_STATE_UNAVAILABLE)) != 0;

    if (is_present && reader->is_mute)
        seen |= SCARD_STATE_MUTE;
    if (is_present && reader->sharing == EXCLUSIVELY)
        seen |= SCARD_STATE_EXCLUSIVE;
    if (is_present && reader->sharing > 0)
        seen |= SCARD_STATE_INUSE;
    is_new |= (known & (is_present ? SCARD_STATE_EMPTY : SCARD_STATE_PRESENT)) != 0;
    is_new |= (known & SCARD_STATE_MUTE) != (seen & SCARD_STATE_MUTE) && (known & SCARD_STATE_PRESENT) != 0;
    is_new |= known_counter != 0 && known_counter != counter;
    is_new |= reader->sharing == EXCLUSIVELY && (known & SCARD_STATE_INUSE) != 0;
    is_new |= reader->sharing > 0 && (known & SCARD_STATE_EXCLUSIVE) != 0;
    is_new |= reader->sharing == 0 && (known & (SCARD_STATE_EXCLUSIVE | SCARD_STATE_INUSE)) != 0;
    state->dwEventState = seen | counter << 16 | (is_new ? SCARD_STATE_CHANGED : 0);
    state->cbAtr = is_present ? settings.atr_size : 0;
    memcpy(state->rgbAtr, settings.atr, state->cbAtr);
}

static bool is_of_readers(const char *name) { return strcasecmp(name, "\\\\?PnP?\\Notification") == 0; }

/* Whether all names are those of readers. */
static bool are_known(SCARD_READERSTATE *states, DWORD count)
{
    bool is_so = true;

    for (DWORD i = 0; i < count; i++) {
        states[i].dwEventState = 0;
        is_so = is_so && (reader_of(states[i].szReader) != NULL || is_of_readers(states[i].szReader));
    }
    return is_so;
}

/* Looks at all states that a caller asks for: whether one is new, or none is to be waited for. */
static bool look_at_all(SCARD_READERSTATE *states, DWORD count)
{
    bool is_new = false, is_ignored = true;

    for (DWORD i = 0; i < count; i++) {
        SCARD_READERSTATE *state = &states[i];
        struct reader *reader = reader_of(state->szReader);
        bool is_asked = (state->dwCurrentState & SCARD_STATE_IGNORE) == 0;
        if (is_asked && reader != NULL)
            look(reader, state);
        is_ignored = is_ignored && !is_asked;
        is_new |= (state->dwEventState & SCARD_STATE_CHANGED) != 0;
    }
    return is_new || is_ignored;
}

API LONG SCardGetStatusChange(SCARDCONTEXT id, DWORD timeout, SCARD_READERSTATE *states, DWORD count)
{
    int64_t end = now() + (int64_t)timeout;

    if (states == NULL && count > 0)
        return SCARD_E_INVALID_PARAMETER;
    for (DWORD i = 0; i < count; i++)
        if (states[i].szReader == NULL)
            return SCARD_E_INVALID_VALUE;
    take();
    struct context *context = context_of(id);
    if (context == NULL)
        return give(SCARD_E_INVALID_HANDLE);
    if (!are_known(states, count))
        return give(SCARD_E_UNKNOWN_READER);
    context->is_cancelled = false;
    while (!look_at_all(states, count)) {
        if (timeout == 0 || (timeout != INFINITE && now() >= end))
            return give(SCARD_E_TIMEOUT);
        wait_for_change();
        context = context_of(id);
        if (context == NULL || context->is_cancelled)
            return give(context == NULL ? SCARD_E_INVALID_HANDLE : SCARD_E_CANCELLED);
    }
    return give(SCARD_S_SUCCESS);
}

/* ---- commands and controls */

API LONG SCardTransmit(SCARDHANDLE id, const SCARD_IO_REQUEST *with, LPCBYTE command, DWORD count, SCARD_IO_REQUEST *by,
                       LPBYTE answer, LPDWORD room)
{
    BYTE given[SOFFITFENNEL_ROOM];
    size_t size = 0;

    if (command == NULL || answer == NULL || room == NULL || with == NULL)
        return SCARD_E_INVALID_PARAMETER;
    DWORD had = *room;
    take();
    struct handle *handle = turn_of(id);
    LONG code = event_of(handle);
    if (code == SCARD_S_SUCCESS && !is_there(handle->reader))
        code = SCARD_E_NO_SMARTCARD;
    if (code == SCARD_S_SUCCESS && with->dwProtocol != handle->reader->protocol)
        code = SCARD_E_PROTO_MISMATCH;
    *room = 0;
    if (code != SCARD_S_SUCCESS)
        return give(code);
    if (view_command(&handle->reader->view, command, count, given, &size) != SOFFITFENNEL_DONE) {
        return give(is_there(handle->reader) ? SCARD_E_NOT_TRANSACTED : SCARD_E_NO_SMARTCARD);
    }
    *room = size;
    if (by != NULL)
        by->dwProtocol = own_protocol();
    if (had < size)
        code = SCARD_E_INSUFFICIENT_BUFFER;
    else
        memcpy(answer, given, size);
    explicit_bzero(given, sizeof given);
    return give(code);
}

static uint32_t number_in(const BYTE *bytes, size_t size)
{
    uint32_t number = 0;

    for (size_t i = 0; i < size; i++)
        number = number << 8 | bytes[i];
    return number;
}

API LONG SCardControl(SCARDHANDLE id, DWORD code, LPCVOID in, DWORD count, LPVOID out, DWORD room, LPDWORD size)
{
    const BYTE *bytes = in;
    uint32_t number = bytes != NULL && count >= 4 ? number_in(bytes, 4) : 0;
    uint16_t mask = bytes != NULL && count == 6 ? (uint16_t)number_in(bytes + 4, 2) : 0;

    (void)out, (void)room;
    if (size != NULL)
        *size = 0;
    take();
    struct handle *handle = handle_of(id);
    LONG fault = event_of(handle);
    if (fault == SCARD_S_SUCCESS && is_taken(handle))
        fault = SCARD_E_SHARING_VIOLATION;
    if (fault != SCARD_S_SUCCESS)
        return give(fault);
    if (code == SCARD_CTL_CODE(FEATURES)) /* clients ask for features, of which this reader has none */
        return give(SCARD_S_SUCCESS);
    for (enum fault kind = FAULT_CUT; kind <= FAULT_CLEAR; kind++) {
        DWORD wanted = kind == FAULT_CUT ? 6 : kind == FAULT_CLEAR ? 0 : 4;
        if (code == SCARD_CTL_CODE(kind) && count == wanted
            && slot_fault(&handle->reader->slot, kind, number, mask) == SOFFITFENNEL_DONE)
            return give(SCARD_S_SUCCESS);
    }
    return give(SCARD_E_UNSUPPORTED_FEATURE);
}

API LONG SCardGetAttrib(SCARDHANDLE id, DWORD attribute, LPBYTE bytes, LPDWORD room)
{
    if (room == NULL)
        return SCARD_E_INVALID_PARAMETER;
    take();
    struct handle *handle = handle_of(id);
    LONG code = event_of(handle);

    if (code == SCARD_S_SUCCESS && is_taken(handle))
        code = SCARD_E_SHARING_VIOLATION;
    if (code != SCARD_S_SUCCESS)
        return give(code);
    const char *name = handle->reader->name;
    if (attribute == SCARD_ATTR_ATR_STRING)
        return give(copy(settings.atr, settings.atr_size, bytes, room));
    if (attribute == SCARD_ATTR_DEVICE_FRIENDLY_NAME || attribute == SCARD_ATTR_DEVICE_SYSTEM_NAME)
        return give(copy(name, strlen(name) + 1, bytes, room));
    return give(SCARD_E_UNSUPPORTED_FEATURE);
}

API LONG SCardSetAttrib(SCARDHANDLE id, DWORD attribute, LPCBYTE bytes, DWORD count)
{
    (void)attribute, (void)count;
    if (bytes == NULL || count == 0)
        return SCARD_E_INVALID_PARAMETER;
    take();
    LONG code = event_of(handle_of(id));

    return give(code == SCARD_S_SUCCESS ? SCARD_E_NOT_TRANSACTED : code);
}

/* ---- names */

API LONG SCardListReaders(SCARDCONTEXT context, LPCSTR groups, LPSTR names, LPDWORD room)
{
    char list[SLOTS * sizeof readers[0].name + 1] = {0};
    size_t size = 0;

    (void)groups;
    if (room == NULL)
        return SCARD_E_INVALID_PARAMETER;
    take();
    if (context_of(context) == NULL)
        return give(SCARD_E_INVALID_HANDLE);
    for (int i = 0; i < settings.count; i++)
        size += strlen(strcpy(list + size, readers[i].name)) + 1;
    return give(copy(list, size + 1, names, room));
}

API LONG SCardListReaderGroups(SCARDCONTEXT context, LPSTR groups, LPDWORD room)
{
    static const char list[] = "SCard$DefaultReaders\0";

    if (room == NULL)
        return SCARD_E_INVALID_PARAMETER;
    take();
    if (context_of(context) == NULL)
        return give(SCARD_E_INVALID_HANDLE);
    return give(copy(list, sizeof list, groups, room));
}

API LONG SCardFreeMemory(SCARDCONTEXT context, LPCVOID memory)
{
    take();
    if (context_of(context) == NULL)
        return give(SCARD_E_INVALID_HANDLE);
    free((void *)memory);
    return give(SCARD_S_SUCCESS);
}

API const char *pcsc_stringify_error(const LONG code)
{
    static const struct { LONG code; const char *words; } known[] = {
        {SCARD_S_SUCCESS, "Command successful."},
        {SCARD_E_CANCELLED, "Command cancelled."},
        {SCARD_E_INSUFFICIENT_BUFFER, "Insufficient buffer."},
        {SCARD_E_INVALID_HANDLE, "Invalid handle."},
        {SCARD_E_INVALID_PARAMETER, "Invalid parameter given."},
        {SCARD_E_INVALID_VALUE, "Invalid value given."},
        {SCARD_E_NO_MEMORY, "Not enough memory."},
        {SCARD_E_NO_SERVICE, "Service not available."},
        {SCARD_E_NO_SMARTCARD, "No smart card inserted."},
        {SCARD_E_NOT_TRANSACTED, "Transaction failed."},
        {SCARD_E_PROTO_MISMATCH, "Card protocol mismatch."},
        {SCARD_E_SHARING_VIOLATION, "Sharing violation."},
        {SCARD_E_TIMEOUT, "Command timeout."},
        {SCARD_E_UNKNOWN_READER, "Unknown reader specified."},
        {SCARD_E_UNSUPPORTED_FEATURE, "Feature not supported."},
        {SCARD_W_REMOVED_CARD, "Card was removed."},
        {SCARD_W_RESET_CARD, "Card was reset."},
        {SCARD_W_UNRESPONSIVE_CARD, "Card is unresponsive."},
    };
    static __thread char other[40];

    for (size_t i = 0; i < sizeof known / sizeof known[0]; i++)
        if (known[i].code == code)
            return known[i].words;
    snprintf(other, sizeof other, "Unknown error: 0x%08lX", (unsigned long)code & 0xFFFFFFFF);
    return other;
}
