#include "slot.h"

#include <endian.h>
#include <errno.h>
#include <fcntl.h>
#include <stdio.h>
#include <stdlib.h>
#include <string.h>
#include <sys/file.h>
#include <sys/mman.h>
#include <sys/stat.h>
#include <time.h>
#include <unistd.h>

enum { GONE_FOR = 2000, PATIENCE = 10000, PAUSE = 20, PAGE_BYTES = 64, PIN_PAGE = 65, ENABLED = 24 };

/* What the processes of a session have in common: device writes, and whether the power cut has come. */
struct session { uint32_t writes, has_cut; };

static struct session own_session, *session = &own_session;

int64_t now(void)
{
    struct timespec at;

    clock_gettime(CLOCK_MONOTONIC, &at);
    return (int64_t)at.tv_sec * 1000 + at.tv_nsec / 1000000;
}

static bool complain(const char *path, const char *why)
{
    fprintf(stderr, "soffitfennel: the card in %s: %s\n", path, why);
    return false;
}

/* The library's store: each device write is in the file before the call returns, and is counted. */
int64_t soffitfennel_store(int32_t device, const void *bytes, size_t size, int64_t offset)
{
    struct stat told;
    ssize_t stored = -1;

    if (fstat(device, &told) == 0 && told.st_nlink > 0 && told.st_size >= offset + (off_t)size)
        stored = pwrite(device, bytes, size, offset);
    session->writes += stored == (ssize_t)size;
    return stored;
}

/* The file at a descriptor above those of the standard streams. (A process without one of them gives its number to the
 * next file, and would write its messages into the card.) */
static int above_streams(int file)
{
    int above = file < 0 || file > STDERR_FILENO ? file : fcntl(file, F_DUPFD_CLOEXEC, STDERR_FILENO + 1);
    int error = errno;

    if (above != file)
        close(file);
    errno = error;
    return above;
}

/* Opens a plain file, and no link. -1: it can't. */
static int open_file(const char *path)
{
    int file = above_streams(open(path, O_RDWR | O_CLOEXEC | O_NOFOLLOW | O_NONBLOCK | O_NOCTTY));
    struct stat told;

    if (file < 0)
        return complain(path, errno == ELOOP ? "it is a link: name the file itself" : strerror(errno)) - 1;
    if (fstat(file, &told) != 0 || !S_ISREG(told.st_mode)) {
        close(file);
        return complain(path, "it is no plain file") - 1;
    }
    return file;
}

/* Waits until no other process has the file. */
static bool lock_file(int file, const char *path)
{
    int64_t end = now() + PATIENCE;

    while (flock(file, LOCK_EX | LOCK_NB) != 0) {
        if (errno != EWOULDBLOCK || now() >= end)
            return complain(path, "another program has it; end that one first");
        usleep(PAUSE * 1000);
    }
    return true;
}

/* Puts the factory card into an empty file. */
static bool fill(int file, uint32_t *words)
{
    soffitfennel_card *card = NULL;
    size_t count = 0;

    if (soffitfennel_factory(&card, SOFFITFENNEL_PAGES) != SOFFITFENNEL_DONE)
        return false;
    soffitfennel_words(&card, words, SOFFITFENNEL_MOST_WORDS, &count);
    soffitfennel_free(&card);
    for (size_t i = 0; i < count; i++)
        words[i] = htobe32(words[i]);
    return pwrite(file, words, sizeof *words * count, 0) == (ssize_t)(sizeof *words * count);
}

/* Makes the card of an open file. */
static bool attach(struct slot *slot, bool is_fresh)
{
    enum { ROOM = SOFFITFENNEL_MOST_WORDS * sizeof(uint32_t) };
    uint32_t *words = calloc(1, ROOM + sizeof *words);
    struct stat told;
    bool is_made = false;

    if (words == NULL)
        return complain(slot->path, "there is too little memory");
    if (is_fresh && fstat(slot->file, &told) == 0 && told.st_size == 0 && !fill(slot->file, words))
        complain(slot->path, "the factory card can't be written");
    ssize_t size = pread(slot->file, words, ROOM + 1, 0);
    for (ssize_t i = 0; i < size / (ssize_t)sizeof *words; i++)
        words[i] = be32toh(words[i]);
    if (size < 0 || size % PAGE_BYTES != 0 || size > ROOM)
        complain(slot->path, size < 0 ? strerror(errno) : "its size is no memory's");
    else
        is_made = soffitfennel_attach(&slot->card, words, (size_t)size / sizeof *words, slot->file) == SOFFITFENNEL_DONE
                  || complain(slot->path, "its words are no card's: tools/card says why");
    explicit_bzero(words, ROOM + sizeof *words);
    free(words);
    return is_made;
}

static void record(const struct slot *slot, const char *word, const uint8_t *bytes, size_t count)
{
    char line[2 * SOFFITFENNEL_BLOCK + 32];
    int size = snprintf(line, sizeof line, "%s", word);

    if (slot->log < 0)
        return;
    for (size_t i = 0; i < count; i++)
        size += snprintf(line + size, sizeof line - (size_t)size, "%02X", bytes[i]);
    line[size++] = '\n';
    if (write(slot->log, line, (size_t)size) != size)
        complain(slot->path, "its session can't be recorded");
}

static void record_fault(const struct slot *slot, const char *form, uint32_t number, unsigned mask)
{
    char line[32];

    snprintf(line, sizeof line, form, number, mask);
    record(slot, line, NULL, 0);
}

/* The counter of a session is in a file of tools/with-card, so that all its processes count on. */
static void join_session(const char *path)
{
    int file = path == NULL ? -1 : open(path, O_RDWR | O_CLOEXEC | O_NOFOLLOW);
    void *shared = file < 0 ? MAP_FAILED
                            : mmap(NULL, sizeof *session, PROT_READ | PROT_WRITE, MAP_SHARED, file, 0);

    session = shared == MAP_FAILED ? &own_session : shared;
    if (file >= 0)
        close(file);
}

/* Arms what is left of the session's power cut. */
static void arm(struct slot *slot, const struct settings *settings)
{
    if (settings->cut_number <= session->writes || session->has_cut)
        return;
    soffitfennel_cut(&slot->card, settings->cut_number - session->writes, settings->cut_mask);
    if (session->writes == 0)
        record_fault(slot, "cut %u %04X", settings->cut_number, settings->cut_mask);
}

bool slot_open(struct slot *slot, const struct settings *settings, int number)
{
    *slot = (struct slot){.path = settings->paths[number], .log = -1};
    slot->file = open_file(slot->path);
    if (slot->file < 0)
        return false;
    if (!lock_file(slot->file, slot->path) || !attach(slot, settings->is_fresh)) {
        close(slot->file);
        return false;
    }
    if (number == 0) {
        if (session == &own_session)
            join_session(settings->session);
        if (settings->log != NULL)
            slot->log = above_streams(open(settings->log, O_WRONLY | O_APPEND | O_CLOEXEC | O_NOFOLLOW));
        arm(slot, settings);
    }
    return true;
}

void slot_close(struct slot *slot)
{
    if (slot->has_power)
        slot_power_off(slot);
    soffitfennel_free(&slot->card);
    close(slot->file);
    if (slot->log >= 0)
        close(slot->log);
}

bool slot_has_card(struct slot *slot) { return !slot->is_broken && now() >= slot->gone_until; }

/* Takes a card out that lost power, or whose file took no more. */
static int32_t told(struct slot *slot, int32_t outcome)
{
    if (outcome == SOFFITFENNEL_DARK) {
        session->has_cut = 1;
        slot->has_power = false;
        slot->gone_until = now() + GONE_FOR;
        record(slot, "= dark", NULL, 0);
    } else if (outcome == SOFFITFENNEL_UNSTORED) {
        slot->is_broken = true;
        complain(slot->path, "its file takes no more; the card is out");
    } else if (outcome == SOFFITFENNEL_MUTE || outcome == SOFFITFENNEL_LOST)
        record(slot, outcome == SOFFITFENNEL_MUTE ? "= mute" : "= lost", NULL, 0);
    return outcome;
}

int32_t slot_power_on(struct slot *slot)
{
    record(slot, "on", NULL, 0);
    int32_t outcome = told(slot, soffitfennel_power_on(&slot->card));

    slot->has_power = outcome == SOFFITFENNEL_DONE;
    if (slot->has_power)
        record(slot, "= atr ", (const uint8_t *)SOFFITFENNEL_ATR, sizeof SOFFITFENNEL_ATR - 1);
    return outcome;
}

void slot_power_off(struct slot *slot)
{
    record(slot, "off", NULL, 0);
    told(slot, soffitfennel_power_off(&slot->card));
    slot->has_power = false;
}

int32_t slot_command(struct slot *slot, const uint8_t *command, size_t count, uint8_t *answer, size_t *size)
{
    record(slot, "apdu ", command, count);
    int32_t outcome = told(slot, soffitfennel_command(&slot->card, command, count, answer, SOFFITFENNEL_ROOM, size));

    if (outcome == SOFFITFENNEL_DONE)
        record(slot, "= < ", answer, *size);
    return outcome;
}

int32_t slot_fault(struct slot *slot, enum fault fault, uint32_t number, uint16_t mask)
{
    static const char *const forms[] = {
        [FAULT_CUT] = "cut %u %04X", [FAULT_LOSE] = "lose %u", [FAULT_GARBLE] = "garble %u"};
    int32_t outcome = SOFFITFENNEL_SIZE;

    if (fault == FAULT_CLEAR)
        return soffitfennel_clear_faults(&slot->card);
    if (fault == FAULT_CUT)
        outcome = soffitfennel_cut(&slot->card, number, mask);
    else if (fault == FAULT_LOSE)
        outcome = soffitfennel_lose(&slot->card, number);
    else if (fault == FAULT_GARBLE)
        outcome = soffitfennel_garble(&slot->card, number);
    if (outcome == SOFFITFENNEL_DONE)
        record_fault(slot, forms[fault], number, mask);
    return outcome;
}

bool slot_has_pin(const struct slot *slot, int pin)
{
    uint32_t word = 0;
    off_t place = (off_t)PAGE_BYTES * (PIN_PAGE + pin - 1) + ENABLED;

    return pread(slot->file, &word, sizeof word, place) == (ssize_t)sizeof word && be32toh(word) == 1;
}
