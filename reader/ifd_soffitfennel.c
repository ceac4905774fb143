/* An IFD handler, version 3.0, for pcscd: readers whose cards are the library's, each with its memory in a file.
 *
 * A reader's DEVICENAME is the path of the file. Where no file is, one with the factory card is made. Options stand
 * behind the path: with ":sync" the disk has each device write before the next one, and with ":faults" clients may set
 * faults.
 *
 * SCardControl sets faults. Code 1: a power cut at a device write (4 bytes), with a mask of its words (2 bytes). Codes
 * 2 and 3: the block that the line loses, or garbles (4 bytes). Code 4 takes all of them back, and the card loses power
 * if there was one. Each number has its most significant byte first.
 */
#include "soffitfennel.h"

#include <debuglog.h>
#include <endian.h>
#include <errno.h>
#include <fcntl.h>
#include <ifdhandler.h>
#include <pthread.h>
#include <reader.h>
#include <stdbool.h>
#include <stdio.h>
#include <stdlib.h>
#include <string.h>
#include <sys/file.h>
#include <sys/resource.h>
#include <sys/stat.h>
#include <time.h>
#include <unistd.h>

enum { SLOTS = 4, PATH_ROOM = 4096, GONE_FOR = 2, CUT = 1, LOSE = 2, GARBLE = 3, CLEAR = 4, FEATURES = 3400 };

static const UCHAR atr[] = {0x3B, 0x80, 0x81, 0x31, 0xFE, 0x45, 0x8B};

/* A reader and its card. */
struct slot {
    pthread_mutex_t lock;
    bool is_used, has_power, has_faults, has_written, is_broken; /* broken: the file failed, so the card stays away */
    time_t gone_until;
    DWORD lun;
    int file;
    char path[PATH_ROOM];
    struct stat known; /* the file behind the last call */
    soffitfennel_card *card;
};

static struct slot slots[SLOTS] = {[0 ... SLOTS - 1] = {.lock = PTHREAD_MUTEX_INITIALIZER}};

/* (pcscd has this function; a test has none) */
#pragma weak log_msg

/* The slot of a reader, locked, or NULL. Without a reader: a slot that is free. */
static struct slot *take(const DWORD *lun)
{
    for (int i = 0; i < SLOTS; i++) {
        pthread_mutex_lock(&slots[i].lock);
        if (lun != NULL ? slots[i].is_used && slots[i].lun == *lun : !slots[i].is_used)
            return &slots[i];
        pthread_mutex_unlock(&slots[i].lock);
    }
    return NULL;
}

static RESPONSECODE give_back(struct slot *slot, RESPONSECODE code)
{
    pthread_mutex_unlock(&slot->lock);
    return code;
}

static uint32_t number_in(const UCHAR *bytes, size_t size)
{
    uint32_t number = 0;

    for (size_t i = 0; i < size; i++)
        number = number << 8 | bytes[i];
    return number;
}

/* Seconds of a clock that nobody sets. */
static time_t seconds(void)
{
    struct timespec now;

    clock_gettime(CLOCK_MONOTONIC, &now);
    return now.tv_sec;
}

/* Says something of a file in the service's log. Always false. */
static bool say(const char *path, const char *what)
{
    if (log_msg != NULL)
        log_msg(PCSC_LOG_CRITICAL, "soffitfennel: %s: %s", path, what);
    else
        fprintf(stderr, "soffitfennel: %s: %s\n", path, what);
    return false;
}

/* Whether nobody but root and this user can put a file into a folder, or move it: not in those above it either, but
 * for one with the sticky bit, where others can't move what isn't theirs. The folder's path is used up. */
static bool is_guarded(char *folder)
{
    struct stat told;
    mode_t sticky = 0;

    for (char *slash = folder; slash != NULL; sticky = S_ISVTX) {
        if (stat(folder, &told) != 0)
            return say(folder, strerror(errno));
        if ((told.st_uid != 0 && told.st_uid != geteuid())
            || ((told.st_mode & (S_IWGRP | S_IWOTH)) != 0 && (told.st_mode & sticky) == 0))
            return say(folder, "other users may write this folder: put the card into one of its own (chmod 700)");
        slash = folder[1] == 0 ? NULL : strrchr(folder, '/');
        if (slash != NULL)
            slash[slash == folder] = 0;
    }
    return true;
}

/* The real path of the folder that a file is in. NULL: there is none, and the log says why. The caller frees it. */
static char *folder_of(const char *path)
{
    char name[PATH_ROOM], *folder;
    const char *slash = strrchr(path, '/');

    snprintf(name, sizeof name, "%.*s", slash == NULL ? 1 : (int)(slash - path) + 1, slash == NULL ? "." : path);
    if ((folder = realpath(name, NULL)) == NULL)
        say(path, strerror(errno));
    return folder;
}

/* Whether the process may write a file up to this size. (Beyond it the system ends the whole service by a signal, which
 * is not the driver's to ignore.) */
static bool may_reach(size_t size)
{
    struct rlimit limit;

    if (getrlimit(RLIMIT_FSIZE, &limit) != 0 || size <= limit.rlim_cur)
        return true;
    errno = EFBIG;
    return false;
}

/* The file at a descriptor above those of the standard streams. (A process without one of them gives its number to the
 * next file, and would write its messages into the card.) */
static int above_streams(int file)
{
    int above = file < 0 || file > STDERR_FILENO ? file : fcntl(file, F_DUPFD_CLOEXEC, STDERR_FILENO + 1);
    int error = errno;

    if (above != file)
        close(file);
    errno = error;
    return above;
}

/* Writes all bytes to a new file, down to the disk, and closes it. */
static bool fill_file(int fresh, const void *bytes, size_t size)
{
    int file = above_streams(fresh);
    size_t written = 0;
    ssize_t now = 0;

    if (file < 0 || !may_reach(size))
        now = -1;
    while (now >= 0 && written < size && (now = write(file, (const char *)bytes + written, size - written)) > 0)
        written += (size_t)now;
    bool is_written = written == size && fsync(file) == 0;
    int error = errno;
    is_written = close(file) == 0 && is_written;
    errno = now == 0 ? ENOSPC : error;
    return is_written;
}

/* Brings a folder's entries to the disk. */
static bool sync_folder(const char *folder)
{
    int file = open(folder, O_RDONLY | O_DIRECTORY | O_CLOEXEC);
    bool is_done = file >= 0 && fsync(file) == 0;

    if (file >= 0)
        close(file);
    return is_done;
}

/* Makes the file, with the factory card's memory: all of it, or none. No file that is there is replaced. */
static bool make_card(const char *path, const char *folder, uint32_t *words)
{
    char fresh[PATH_ROOM + sizeof ".XXXXXX"];
    size_t count = 0;
    soffitfennel_card *card = NULL;
    int32_t outcome = soffitfennel_factory(&card, SOFFITFENNEL_PAGES);

    if (outcome == SOFFITFENNEL_DONE)
        outcome = soffitfennel_words(&card, words, SOFFITFENNEL_MOST_WORDS, &count);
    soffitfennel_free(&card);
    if (outcome != SOFFITFENNEL_DONE)
        return say(path, "there is too little memory");
    for (size_t i = 0; i < count; i++)
        words[i] = htobe32(words[i]);
    snprintf(fresh, sizeof fresh, "%s.XXXXXX", path);
    int file = mkostemp(fresh, O_CLOEXEC);
    if (file < 0)
        return say(path, strerror(errno));
    bool is_made = fill_file(file, words, sizeof *words * count) && link(fresh, path) == 0;
    int error = errno;
    is_made = unlink(fresh) == 0 && is_made && sync_folder(folder);
    say(path, is_made ? "a new card is made, with the factory card's PINs" : strerror(error));
    return is_made;
}

/* Opens the file, which no other program may use meanwhile. -1: it can't, and the log says why. */
static int open_locked(const char *path, bool sync)
{
    struct stat told;
    int file = -1;

    if (lstat(path, &told) != 0)
        return say(path, strerror(errno)), -1;
    if (!S_ISREG(told.st_mode))
        return say(path, "it is no regular file (DEVICENAME names the file of a card)"), -1;
    if (told.st_size == 0)
        return say(path, "it is empty: put a copy of the card there, or remove it and get a new card"), -1;
    file = above_streams(open(path, O_RDWR | O_CLOEXEC | O_NOFOLLOW | O_NONBLOCK | (sync ? O_DSYNC : 0)));
    if (file >= 0 && flock(file, LOCK_EX | LOCK_NB) == 0)
        return file;
    say(path, errno == EWOULDBLOCK ? "another program uses it" : strerror(errno));
    if (file >= 0)
        close(file);
    return -1;
}

/* Puts the card in the open file into the slot. */
static bool attach(struct slot *slot, uint32_t *words)
{
    ssize_t size = pread(slot->file, words, sizeof *words * SOFFITFENNEL_MOST_WORDS + 1, 0);
    size_t count = size < 0 ? 0 : (size_t)size / sizeof *words;

    if (fstat(slot->file, &slot->known) != 0 || size < 0)
        return say(slot->path, strerror(errno));
    if (!S_ISREG(slot->known.st_mode) || (size_t)size != sizeof *words * count)
        return say(slot->path, "its size is no memory's");
    for (size_t i = 0; i < count; i++)
        words[i] = be32toh(words[i]);
    int32_t outcome = soffitfennel_attach(&slot->card, words, count, (int32_t)(slot - slots));
    if (outcome != SOFFITFENNEL_DONE)
        return say(slot->path, outcome == SOFFITFENNEL_SIZE ? "its size is no memory's"
                   : outcome == SOFFITFENNEL_NO_CARD        ? "its words are no card's (tools/card shows why)"
                                                            : "there is too little memory");
    return true;
}

/* Opens the card in a slot's file, and makes it where no file is. */
static bool open_card(struct slot *slot, bool sync)
{
    size_t room = sizeof(uint32_t) * SOFFITFENNEL_MOST_WORDS + 1;
    uint32_t *words = calloc(1, room);
    char *folder = folder_of(slot->path), *above = folder == NULL ? NULL : strdup(folder);
    struct stat told;
    bool is_open = words != NULL && above != NULL && is_guarded(above);

    if (is_open && lstat(slot->path, &told) != 0 && errno == ENOENT)
        is_open = make_card(slot->path, folder, words);
    is_open = is_open && (slot->file = open_locked(slot->path, sync)) >= 0;
    if (is_open && !(is_open = attach(slot, words)))
        close(slot->file);
    if (words != NULL)
        explicit_bzero(words, room); /* (PINs were in it) */
    free(words), free(folder), free(above);
    return is_open;
}

/* Cuts an option off the end of a path. Whether it was there. */
static bool cut_option(char *path, const char *option)
{
    size_t size = strlen(path), rest = strlen(option);
    bool is_there = size > rest && strcmp(path + size - rest, option) == 0;

    if (is_there)
        path[size - rest] = 0;
    return is_there;
}

RESPONSECODE IFDHCreateChannelByName(DWORD Lun, LPSTR DeviceName)
{
    struct slot *slot = take(&Lun);
    bool sync = false;

    if (slot != NULL)
        return give_back(slot, IFD_COMMUNICATION_ERROR);
    /* (a name for a new file is longer by 7 characters) */
    if (strlen(DeviceName) + sizeof ".XXXXXX" > PATH_ROOM)
        return say("DEVICENAME", "the path is too long"), IFD_COMMUNICATION_ERROR;
    if ((slot = take(NULL)) == NULL)
        return say(DeviceName, "there is no room for a fifth reader"), IFD_COMMUNICATION_ERROR;
    strcpy(slot->path, DeviceName);
    slot->has_faults = slot->has_power = slot->has_written = slot->is_broken = false;
    for (bool is_more = true; is_more;) {
        bool is_sync = cut_option(slot->path, ":sync"), is_faults = cut_option(slot->path, ":faults");
        /* (pcscd takes a name without a colon only if the file is there) */
        bool is_none = cut_option(slot->path, ":");
        sync |= is_sync, slot->has_faults |= is_faults, is_more = is_sync || is_faults || is_none;
    }
    slot->lun = Lun, slot->gone_until = 0;
    slot->is_used = open_card(slot, sync);
    return give_back(slot, slot->is_used ? IFD_SUCCESS : IFD_COMMUNICATION_ERROR);
}

RESPONSECODE IFDHCreateChannel(DWORD Lun, DWORD Channel) { return (void)Lun, (void)Channel, IFD_NO_SUCH_DEVICE; }

RESPONSECODE IFDHCloseChannel(DWORD Lun)
{
    struct slot *slot = take(&Lun);

    if (slot == NULL)
        return IFD_NO_SUCH_DEVICE;
    soffitfennel_free(&slot->card);
    close(slot->file);
    slot->is_used = false;
    return give_back(slot, IFD_SUCCESS);
}

RESPONSECODE IFDHGetCapabilities(DWORD Lun, DWORD Tag, PDWORD Length, PUCHAR Value)
{
    struct slot *slot = take(&Lun);
    RESPONSECODE code = IFD_ERROR_TAG;

    if (slot == NULL)
        return IFD_NO_SUCH_DEVICE;
    if (Tag == TAG_IFD_ATR || Tag == SCARD_ATTR_ATR_STRING) {
        code = slot->has_power && *Length >= sizeof atr ? IFD_SUCCESS : IFD_ICC_NOT_PRESENT;
        if (code == IFD_SUCCESS)
            memcpy(Value, atr, *Length = sizeof atr);
    } else if (Tag == TAG_IFD_SIMULTANEOUS_ACCESS || Tag == TAG_IFD_SLOTS_NUMBER || Tag == TAG_IFD_THREAD_SAFE) {
        *Value = Tag == TAG_IFD_SIMULTANEOUS_ACCESS ? SLOTS : 1;
        *Length = 1;
        code = IFD_SUCCESS;
    }
    return give_back(slot, code);
}

RESPONSECODE IFDHSetCapabilities(DWORD Lun, DWORD Tag, DWORD Length, PUCHAR Value)
{
    return (void)Lun, (void)Tag, (void)Length, (void)Value, IFD_NOT_SUPPORTED;
}

RESPONSECODE IFDHSetProtocolParameters(DWORD Lun, DWORD Protocol, UCHAR Flags, UCHAR PTS1, UCHAR PTS2, UCHAR PTS3)
{
    (void)Lun, (void)Flags, (void)PTS1, (void)PTS2, (void)PTS3;
    return Protocol == SCARD_PROTOCOL_T1 ? IFD_SUCCESS : IFD_PROTOCOL_NOT_SUPPORTED;
}

/* Takes the card out until the service starts again, and says why. Always false. */
static bool take_out(struct slot *slot, const char *why)
{
    slot->is_broken = true;
    say(slot->path, why);
    return say(slot->path, "the card stays out until the service starts again");
}

/* Whether the file is as the last call left it: the same file, of the same size, that nobody else has written. */
static bool is_as_known(struct slot *slot)
{
    struct stat now;
    const struct stat *known = &slot->known;

    if (slot->is_broken)
        return false;
    if (lstat(slot->path, &now) != 0)
        return take_out(slot, errno == ENOENT ? "the file is gone" : strerror(errno));
    if (now.st_ino != known->st_ino || now.st_dev != known->st_dev)
        return take_out(slot, "another file is in its place");
    if (now.st_size != known->st_size || now.st_mtim.tv_sec != known->st_mtim.tv_sec
        || now.st_mtim.tv_nsec != known->st_mtim.tv_nsec)
        return take_out(slot, "another program wrote the file");
    return true;
}

/* The same behind a call, which may have written the file itself. */
static bool is_as_written(struct slot *slot)
{
    struct stat now;

    if (slot->has_written && fstat(slot->file, &now) == 0)
        slot->known.st_mtim = now.st_mtim;
    slot->has_written = false;
    return is_as_known(slot);
}

/* Stores a device write of a slot's card in its file. */
int64_t soffitfennel_store(int32_t device, const void *bytes, size_t size, int64_t offset)
{
    struct slot *slot = &slots[device];

    slot->has_written = true;
    errno = 0;
    if (may_reach((size_t)offset + size) && pwrite(slot->file, bytes, size, offset) == (ssize_t)size)
        return (int64_t)size;
    take_out(slot, errno != 0 ? strerror(errno) : "the file took a part of a write");
    return -1;
}

/* Takes out a card that lost power. It is back in later. */
static void lose_power(struct slot *slot)
{
    slot->has_power = false;
    slot->gone_until = seconds() + GONE_FOR;
}

/* What an outcome is to pcscd. */
static RESPONSECODE code_of(struct slot *slot, int32_t outcome)
{
    if (!is_as_written(slot))
        return IFD_COMMUNICATION_ERROR;
    if (outcome == SOFFITFENNEL_DARK) {
        lose_power(slot);
        return IFD_ICC_NOT_PRESENT;
    }
    return outcome == SOFFITFENNEL_DONE ? IFD_SUCCESS : IFD_COMMUNICATION_ERROR;
}

static RESPONSECODE switch_power(struct slot *slot, bool is_up)
{
    if (!is_as_known(slot))
        return IFD_COMMUNICATION_ERROR;
    return code_of(slot, is_up ? soffitfennel_power_on(&slot->card) : soffitfennel_power_off(&slot->card));
}

RESPONSECODE IFDHPowerICC(DWORD Lun, DWORD Action, PUCHAR Atr, PDWORD AtrLength)
{
    struct slot *slot = take(&Lun);
    bool is_up = Action == IFD_POWER_UP || Action == IFD_RESET;

    if (slot == NULL)
        return IFD_NO_SUCH_DEVICE;
    if (!is_up && Action != IFD_POWER_DOWN)
        return give_back(slot, IFD_NOT_SUPPORTED);
    if (is_up && *AtrLength < sizeof atr)
        return give_back(slot, IFD_ERROR_INSUFFICIENT_BUFFER);
    RESPONSECODE code = switch_power(slot, is_up);
    slot->has_power = is_up && code == IFD_SUCCESS;
    *AtrLength = slot->has_power ? sizeof atr : 0;
    memcpy(Atr, atr, *AtrLength);
    return give_back(slot, code == IFD_SUCCESS ? code : IFD_ERROR_POWER_ACTION);
}

static RESPONSECODE run_command(struct slot *slot, const UCHAR *command, DWORD count, PUCHAR answer, PDWORD size)
{
    size_t got = 0;
    RESPONSECODE code = IFD_COMMUNICATION_ERROR;

    if (is_as_known(slot))
        code = code_of(slot, soffitfennel_command(&slot->card, command, count, answer, *size, &got));
    *size = code == IFD_SUCCESS ? got : 0;
    return code;
}

RESPONSECODE IFDHTransmitToICC(DWORD Lun, SCARD_IO_HEADER SendPci, PUCHAR TxBuffer, DWORD TxLength, PUCHAR RxBuffer,
                               PDWORD RxLength, PSCARD_IO_HEADER RecvPci)
{
    struct slot *slot = take(&Lun);
    RESPONSECODE code = ((void)SendPci, IFD_SUCCESS);

    if (slot == NULL)
        return IFD_NO_SUCH_DEVICE;
    if (*RxLength < SOFFITFENNEL_ROOM)
        return give_back(slot, IFD_ERROR_INSUFFICIENT_BUFFER);
    if (TxLength > SOFFITFENNEL_COMMAND) /* no command of the card: wrong length */
        RxBuffer[0] = 0x67, RxBuffer[1] = 0x00, *RxLength = 2;
    else
        code = run_command(slot, TxBuffer, TxLength, RxBuffer, RxLength);
    if (RecvPci != NULL)
        RecvPci->Protocol = 1;
    return give_back(slot, code);
}

RESPONSECODE IFDHICCPresence(DWORD Lun)
{
    struct slot *slot = take(&Lun);

    if (slot == NULL)
        return IFD_NO_SUCH_DEVICE;
    return give_back(slot, slot->is_broken || seconds() < slot->gone_until ? IFD_ICC_NOT_PRESENT : IFD_ICC_PRESENT);
}

/* Takes back all faults of a card, which switches its power off. */
static int32_t clear_faults(struct slot *slot)
{
    const uint32_t faults = SOFFITFENNEL_HAS_CUT | SOFFITFENNEL_HAS_LOSS | SOFFITFENNEL_HAS_GARBLING;
    uint32_t state;

    if (soffitfennel_state(&slot->card, &state) == SOFFITFENNEL_DONE && (state & faults) == 0)
        return SOFFITFENNEL_DONE;
    lose_power(slot);
    return soffitfennel_clear_faults(&slot->card);
}

/* Sets a fault of a card, or takes all back. */
static int32_t set_fault(struct slot *slot, DWORD code, const UCHAR *bytes, DWORD count)
{
    if (code == SCARD_CTL_CODE(CLEAR) && count == 0)
        return clear_faults(slot);
    if (code == SCARD_CTL_CODE(CUT) && count == 6)
        return soffitfennel_cut(&slot->card, number_in(bytes, 4), (uint16_t)number_in(bytes + 4, 2));
    if (code == SCARD_CTL_CODE(LOSE) && count == 4)
        return soffitfennel_lose(&slot->card, number_in(bytes, 4));
    if (code == SCARD_CTL_CODE(GARBLE) && count == 4)
        return soffitfennel_garble(&slot->card, number_in(bytes, 4));
    return SOFFITFENNEL_SIZE;
}

RESPONSECODE IFDHControl(DWORD Lun, DWORD Code, PUCHAR Tx, DWORD TxLength, PUCHAR Rx, DWORD RxLength, LPDWORD Returned)
{
    struct slot *slot = take(&Lun);
    int32_t outcome = SOFFITFENNEL_SIZE;

    (void)Rx, (void)RxLength, *Returned = 0;
    if (slot == NULL)
        return IFD_NO_SUCH_DEVICE;
    if (Code == SCARD_CTL_CODE(FEATURES)) /* pcscd's clients ask for features, which this reader has none of */
        outcome = SOFFITFENNEL_DONE;
    else if (slot->has_faults)
        outcome = set_fault(slot, Code, Tx, TxLength);
    return give_back(slot, outcome == SOFFITFENNEL_DONE ? IFD_SUCCESS : IFD_ERROR_NOT_SUPPORTED);
}
