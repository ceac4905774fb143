/* A card that is kept in a file: kept FILE. Each run adds 1 to the first byte of the ICCID, and prints both.
 *
 * FILE is made with the factory card if it isn't there: whole or not at all, and readable for its owner alone, since it
 * holds PINs. The disk has each device write before the call returns. One program at a time uses the file.
 */
#include "soffitfennel.h"

#include <endian.h>
#include <errno.h>
#include <fcntl.h>
#include <libgen.h>
#include <stdbool.h>
#include <stdio.h>
#include <stdlib.h>
#include <string.h>
#include <sys/file.h>
#include <sys/stat.h>
#include <unistd.h>

static const uint8_t select_iccid[] = {0x00, 0xA4, 0x00, 0x0C, 0x02, 0x2F, 0xE2};
static const uint8_t verify[] = {0x00, 0x20, 0x00, 0x01, 0x08, 0x31, 0x32, 0x33, 0x34, 0xFF, 0xFF, 0xFF, 0xFF};
static const uint8_t read_byte[] = {0x00, 0xB0, 0x00, 0x00, 0x01};

/* (one byte more than the largest memory, so that a larger file is noticed) */
static union {
    uint32_t words[SOFFITFENNEL_MOST_WORDS];
    char bytes[sizeof(uint32_t) * SOFFITFENNEL_MOST_WORDS + 1];
} image;

/* Says what is wrong with a file or a card. Always false. */
static bool say(const char *name, const char *what)
{
    fprintf(stderr, "kept: %s: %s\n", name, what);
    return false;
}

/* Brings the name of a new file to the disk. */
static bool sync_folder_of(const char *path)
{
    char *copy = strdup(path);
    int folder = copy == NULL ? -1 : open(dirname(copy), O_RDONLY | O_DIRECTORY | O_CLOEXEC);
    bool is_done = folder >= 0 && fsync(folder) == 0;

    free(copy);
    return folder >= 0 && close(folder) == 0 && is_done;
}

/* Writes all bytes, down to the disk. */
static bool write_all(int file, const char *bytes, size_t size)
{
    size_t written = 0;
    ssize_t now = 0;

    while (written < size && (now = write(file, bytes + written, size - written)) > 0)
        written += (size_t)now;
    return written == size && fsync(file) == 0;
}

/* Puts bytes into a new file under another name, and gives it the path once the disk has it. A file that another
 * program put there meanwhile stays, and a loss of power leaves no part of a file there. */
static bool make_file(const char *path, const void *bytes, size_t size)
{
    char name[4096];

    if (snprintf(name, sizeof name, "%s.XXXXXX", path) >= (int)sizeof name)
        return say(path, "the path is too long");
    int file = mkstemp(name);
    if (file < 0)
        return say(path, strerror(errno));
    bool is_made = write_all(file, bytes, size) && link(name, path) == 0;
    int error = errno;
    close(file);
    unlink(name);
    return is_made ? sync_folder_of(path) : say(path, strerror(error));
}

/* Makes the file with the factory card. */
static bool make_card(const char *path)
{
    soffitfennel_card *card = NULL;
    size_t count = 0;
    int32_t outcome = soffitfennel_factory(&card, SOFFITFENNEL_PAGES);

    if (outcome == SOFFITFENNEL_DONE)
        outcome = soffitfennel_words(&card, image.words, SOFFITFENNEL_MOST_WORDS, &count);
    soffitfennel_free(&card);
    if (outcome != SOFFITFENNEL_DONE)
        return say("the factory card", soffitfennel_outcome_name(outcome));
    for (size_t i = 0; i < count; i++)
        image.words[i] = htobe32(image.words[i]);
    return make_file(path, image.words, sizeof *image.words * count);
}

/* The file at a descriptor above those of the standard streams. (A process without one of them gives its number to the
 * next file, and would write its messages into the card.) */
static int above_streams(int file)
{
    int above = file < 0 || file > STDERR_FILENO ? file : fcntl(file, F_DUPFD_CLOEXEC, STDERR_FILENO + 1);
    int error = errno;

    if (above != file)
        close(file);
    errno = error;
    return above;
}

/* Opens the file, for this program alone. -1: it can't. */
static int open_file(const char *path)
{
    struct stat told;
    int file = open(path, O_RDWR | O_DSYNC | O_CLOEXEC | O_NOFOLLOW | O_NONBLOCK);

    if (file < 0 && errno == ENOENT) {
        if (!make_card(path))
            return -1;
        file = open(path, O_RDWR | O_DSYNC | O_CLOEXEC | O_NOFOLLOW | O_NONBLOCK);
    }
    file = above_streams(file);
    if (file < 0)
        return say(path, errno == ELOOP ? "it is a symbolic link" : strerror(errno)), -1;
    if (fstat(file, &told) != 0 || !S_ISREG(told.st_mode))
        say(path, "it is no regular file");
    else if (flock(file, LOCK_EX | LOCK_NB) != 0)
        say(path, errno == EWOULDBLOCK ? "another program uses it" : strerror(errno));
    else
        return file;
    close(file);
    return -1;
}

/* Makes the card of the image in the file. The descriptor is its device, so it stays open as long as the card. */
static bool attach(soffitfennel_card **card, const char *path, int file)
{
    ssize_t size = pread(file, image.bytes, sizeof image.bytes, 0);
    size_t count = size < 0 ? 0 : (size_t)size / sizeof *image.words;

    if (size < 0)
        return say(path, strerror(errno));
    if ((size_t)size != sizeof *image.words * count)
        return say(path, "its size is no memory's");
    for (size_t i = 0; i < count; i++)
        image.words[i] = be32toh(image.words[i]);
    int32_t outcome = soffitfennel_attach(card, image.words, count, file);
    explicit_bzero(&image, sizeof image); /* (PINs were in it) */
    return outcome == SOFFITFENNEL_DONE || say(path, soffitfennel_outcome_name(outcome));
}

/* Sends a command. True: its answer ends with 9000. */
static bool ask(soffitfennel_card **card, const uint8_t *command, size_t count, uint8_t *answer)
{
    char text[] = "0000";
    size_t size;
    int32_t outcome = soffitfennel_command(card, command, count, answer, SOFFITFENNEL_ROOM, &size);

    if (outcome != SOFFITFENNEL_DONE)
        return say("the card", soffitfennel_outcome_name(outcome));
    snprintf(text, sizeof text, "%02X%02X", answer[size - 2], answer[size - 1]);
    return strcmp(text, "9000") == 0 || say("the card answers", text);
}

static bool count_up(soffitfennel_card **card)
{
    uint8_t update[] = {0x00, 0xD6, 0x00, 0x00, 0x01, 0x00}, answer[SOFFITFENNEL_ROOM];
    int32_t outcome = soffitfennel_power_on(card);

    if (outcome != SOFFITFENNEL_DONE)
        return say("the card", soffitfennel_outcome_name(outcome));
    if (!ask(card, select_iccid, sizeof select_iccid, answer) || !ask(card, verify, sizeof verify, answer)
        || !ask(card, read_byte, sizeof read_byte, answer))
        return false;
    printf("%u", (unsigned)answer[0]);
    fflush(stdout);
    update[5] = (uint8_t)(answer[0] + 1);
    if (!ask(card, update, sizeof update, answer))
        return false;
    printf(" %u\n", (unsigned)update[5]);
    return fflush(stdout) == 0;
}

int main(int argc, char **argv)
{
    soffitfennel_card *card = NULL;

    if (argc != 2)
        return fprintf(stderr, "usage: kept FILE\n"), 1;
    int file = open_file(argv[1]);
    bool is_done = file >= 0 && attach(&card, argv[1], file) && count_up(&card);
    soffitfennel_free(&card);
    if (file >= 0)
        close(file);
    return !is_done;
}
