/* Kills a program that keeps a card in a file, at random moments: kill FILE RUNS SEED. The program updates the ICCID
 * with one number after another, and shows wrong PINs. After each kill the image is a card's: the last update that was
 * answered is there, none is there by half, and no try is back. The last line counts the kills.
 */
#include "soffitfennel.h"

#include <endian.h>
#include <fcntl.h>
#include <poll.h>
#include <signal.h>
#include <stdbool.h>
#include <stdio.h>
#include <stdlib.h>
#include <string.h>
#include <sys/wait.h>
#include <time.h>
#include <unistd.h>

enum { ICCID = 10, LATEST = 3000000, WRONG_EACH = 4 };

/* What the killed program says before a command, and behind its answer. */
enum step { NOTHING, UPDATING, UPDATED, SHOWING, SHOWN, REPAIRING };

struct message {
    enum step step;
    uint32_t number;
};

static const uint8_t select_iccid[] = {0x00, 0xA4, 0x00, 0x0C, 0x02, 0x2F, 0xE2};
static const uint8_t verify[] = {0x00, 0x20, 0x00, 0x01, 0x08, 0x31, 0x32, 0x33, 0x34, 0xFF, 0xFF, 0xFF, 0xFF};
static const uint8_t wrong[] = {0x00, 0x20, 0x00, 0x01, 0x08, 0x31, 0x32, 0x33, 0x35, 0xFF, 0xFF, 0xFF, 0xFF};
static const uint8_t query[] = {0x00, 0x20, 0x00, 0x01};
static const uint8_t read_iccid[] = {0x00, 0xB0, 0x00, 0x00, ICCID};

static uint32_t words[SOFFITFENNEL_MOST_WORDS];
static uint8_t answer[SOFFITFENNEL_ROOM];

static void must(bool holds, const char *what, long number)
{
    if (!holds) {
        fprintf(stderr, "kill: %s (%ld)\n", what, number);
        exit(1);
    }
}

/* The status of a command. */
static unsigned ask(soffitfennel_card **card, const uint8_t *command, size_t count)
{
    size_t size;

    if (soffitfennel_command(card, command, count, answer, sizeof answer, &size) != SOFFITFENNEL_DONE)
        return 0;
    return (unsigned)answer[size - 2] << 8 | answer[size - 1];
}

/* The card in the file, with power on and the ICCID selected. */
static soffitfennel_card *attach(int file)
{
    soffitfennel_card *card = NULL;
    ssize_t got = pread(file, words, sizeof words, 0);
    size_t count = got < 0 ? 0 : (size_t)got / sizeof *words;

    for (size_t i = 0; i < count; i++)
        words[i] = be32toh(words[i]);
    must(soffitfennel_attach(&card, words, count, file) == SOFFITFENNEL_DONE, "no card is found", (long)count);
    must(soffitfennel_power_on(&card) == SOFFITFENNEL_DONE, "no power", 0);
    must(ask(&card, select_iccid, sizeof select_iccid) == 0x9000, "no file", 0);
    return card;
}

/* The content of the ICCID that a number stands for. */
static void content_of(uint32_t number, uint8_t *bytes)
{
    for (int i = 0; i < ICCID; i++)
        bytes[i] = (uint8_t)(number >> 8 * (i % 4));
}

static void say(int to, enum step step, uint32_t number)
{
    struct message message = {step, number};

    must(write(to, &message, sizeof message) == sizeof message, "a full pipe", number);
}

/* The program that is killed. */
static void work(int file, int to, uint32_t number)
{
    uint8_t update[5 + ICCID] = {0x00, 0xD6, 0x00, 0x00, ICCID};
    soffitfennel_card *card = attach(file);

    for (;;) {
        must(ask(&card, verify, sizeof verify) == 0x9000, "the PIN is refused", number);
        content_of(++number, update + 5);
        say(to, UPDATING, number);
        must(ask(&card, update, sizeof update) == 0x9000, "an update is refused", number);
        say(to, UPDATED, number);
        if (number % WRONG_EACH == 0) {
            say(to, SHOWING, number);
            must(ask(&card, wrong, sizeof wrong) == 0x63C2, "a wrong PIN", number);
            say(to, SHOWN, number);
            for (volatile int wait = 0; wait < 2000; wait++) {
            }
            say(to, REPAIRING, number);
        }
    }
}

/* Starts that program, kills it, and returns what it said last. */
static struct message kill_one(int file, uint32_t number)
{
    struct message now, last = {NOTHING, number};
    struct timespec wait = {0, rand() % LATEST};
    int ends[2], status;

    must(pipe(ends) == 0 && fcntl(ends[1], F_SETPIPE_SZ, 1 << 20) > 0, "no pipe", 0);
    pid_t child = fork();
    must(child >= 0, "no child", 0);
    if (child == 0)
        work(file, ends[1], number);
    close(ends[1]);
    /* Half of the kills wait for the first command: on a busy machine the others may come before it. */
    struct pollfd said = {ends[0], POLLIN, 0};
    must(rand() % 2 || poll(&said, 1, -1) == 1, "no word of the program", 0);
    nanosleep(&wait, NULL);
    kill(child, SIGKILL);
    waitpid(child, &status, 0);
    must(WIFSIGNALED(status), "the program ended itself", status);
    while (read(ends[0], &now, sizeof now) == sizeof now)
        last = now;
    close(ends[0]);
    return last;
}

/* Looks at the card behind a kill: the number that it has. */
static uint32_t look(int file, struct message last, uint32_t before)
{
    uint8_t content[ICCID];
    soffitfennel_card *card = attach(file);
    unsigned tries = ask(&card, query, sizeof query);

    must(tries >= (last.step == REPAIRING ? 0x63C1 : 0x63C2) && tries <= 0x63C3, "a wrong number of tries", tries);
    must(last.step != SHOWN || tries == 0x63C2, "a try is back", last.number);
    must(ask(&card, verify, sizeof verify) == 0x9000, "the PIN is refused", last.number);
    must(ask(&card, read_iccid, sizeof read_iccid) == 0x9000, "no content", last.number);
    soffitfennel_free(&card);
    uint32_t now = last.number;
    content_of(now, content);
    if (last.step == UPDATING && memcmp(answer, content, ICCID) != 0)
        content_of(--now, content);
    must(now == 0 || memcmp(answer, content, ICCID) == 0, "an update is lost, or there by half", last.number);
    must(now >= before, "an old update is back", now);
    return now;
}

int main(int argc, char **argv)
{
    long runs = argc > 2 ? atol(argv[2]) : 0, inside = 0;
    uint32_t number = 0;

    srand(argc > 3 ? (unsigned)atoi(argv[3]) : 0);
    int file = argc > 1 ? open(argv[1], O_RDWR | O_CREAT | O_TRUNC, 0600) : -1;
    soffitfennel_card *card = NULL;
    size_t count = 0;
    must(file >= 0 && soffitfennel_factory(&card, SOFFITFENNEL_PAGES) == SOFFITFENNEL_DONE, "no card", 0);
    must(soffitfennel_words(&card, words, SOFFITFENNEL_MOST_WORDS, &count) == SOFFITFENNEL_DONE, "no words", 0);
    soffitfennel_free(&card);
    for (size_t i = 0; i < count; i++)
        words[i] = htobe32(words[i]);
    must(pwrite(file, words, sizeof *words * count, 0) == (ssize_t)(sizeof *words * count), "no file", 0);
    for (long run = 0; run < runs; run++) {
        struct message last = kill_one(file, number);
        inside += last.step == UPDATING || last.step == SHOWING;
        number = look(file, last, number);
    }
    printf("kill: %ld kills, %ld in a command that writes, %u updates\n", runs, inside, (unsigned)number);
    return 0;
}
