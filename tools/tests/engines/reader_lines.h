/* What the reader's ends for tools/badcard share: ENGINE -- CARD.. reads lines "on" and "apdu H", and prints what
 * ./bench prints. It starts the words behind --, and sends that card lines "on" and "block H". */
#ifndef READER_LINES_H
#define READER_LINES_H

#include <stdbool.h>
#include <stdint.h>
#include <stdio.h>
#include <stdlib.h>
#include <string.h>
#include <unistd.h>

enum { LINE = 2048, MOST_COMMAND = 261 };

static FILE *to_card, *from_card;

/* Starts the card, with a pipe to it and one back. */
static bool start(char **words)
{
    int there[2], back[2];

    if (pipe(there) != 0 || pipe(back) != 0)
        return false;
    if (fork() == 0) {
        dup2(there[0], STDIN_FILENO);
        dup2(back[1], STDOUT_FILENO);
        close(there[1]);
        close(back[0]);
        execvp(*words, words);
        _exit(1);
    }
    close(there[0]);
    close(back[1]);
    to_card = fdopen(there[1], "w");
    from_card = fdopen(back[0], "r");
    return to_card != NULL && from_card != NULL;
}

/* The bytes that a text spells; what is more than limit bytes is cut off there. */
static size_t bytes_of(const char *text, uint8_t *bytes, size_t limit)
{
    size_t size = 0;
    unsigned byte;

    while (size < limit && sscanf(text + 2 * size, "%2X", &byte) == 1)
        bytes[size++] = (uint8_t)byte;
    return size;
}

/* Gives the card a line, and takes what it prints. */
static bool ask(char line[LINE])
{
    fprintf(to_card, "%s\n", line);
    fflush(to_card);
    if (fgets(line, LINE, from_card) == NULL)
        return false;
    line[strcspn(line, "\n")] = 0;
    return true;
}

/* Sends a block; the size of the card's block, or 0. */
static size_t exchange_blocks(const uint8_t *block, size_t size, uint8_t *received, size_t limit)
{
    char line[LINE];
    size_t at = (size_t)sprintf(line, "block ");

    for (size_t i = 0; i < size; i++)
        at += (size_t)sprintf(line + at, "%02X", block[i]);
    return ask(line) && strncmp(line, "< ", 2) == 0 ? bytes_of(line + 2, received, limit) : 0;
}

/* Prints an answer, or that there is none. */
static void print_answer(bool is_done, const uint8_t *answer, size_t size)
{
    printf(is_done ? "< " : "lost");
    for (size_t i = 0; is_done && i < size; i++)
        printf("%02X", answer[i]);
    printf("\n");
}

/* Serves each line: a command by transmit, which prints; another by power_on, which gives what the card prints. */
static void serve(bool (*power_on)(char line[LINE]), void (*transmit)(const uint8_t *command, size_t count))
{
    char line[LINE];
    uint8_t command[MOST_COMMAND];

    while (fgets(line, sizeof line, stdin) != NULL) {
        line[strcspn(line, "\n")] = 0;
        if (strncmp(line, "apdu ", 5) == 0)
            transmit(command, bytes_of(line + 5, command, sizeof command));
        else if (power_on(line))
            printf("%s\n", line);
        fflush(stdout);
    }
}

/* Starts the card that stands behind --. */
static bool start_card(int count, char **words)
{
    return count >= 3 && strcmp(words[1], "--") == 0 && start(words + 2);
}

#endif
