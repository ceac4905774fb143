/* Runs the script on standard input on a card of the library, and prints what ./bench prints (docs/SCRIPT.md). */
#include "soffitfennel.h"

#include <stdbool.h>
#include <stdio.h>
#include <string.h>

enum { LINE_LIMIT = 1024, SCRIPT_LIMIT = 16777216, BAD_LINE = 2, UNREADABLE = 3, UNWRITABLE = 4, NO_MEMORY = 5 };

/* The value of a digit, or 16 of any other character. */
static unsigned digit(char c)
{
    static const char upper[] = "0123456789ABCDEF", lower[] = "0123456789abcdef";
    const char *at = c == 0 ? NULL : strchr(upper, c);

    if (at != NULL)
        return (unsigned)(at - upper);
    at = c == 0 ? NULL : strchr(lower, c);
    return at != NULL ? (unsigned)(at - lower) : 16;
}

/* The bytes that a text spells; their number, or 0 for another text, or one of more than limit bytes. */
static size_t bytes_of(const char *text, uint8_t *bytes, size_t limit)
{
    size_t size = strlen(text);

    if (size % 2 != 0 || size / 2 > limit)
        return 0;
    for (size_t i = 0; i < size; i += 2) {
        if (digit(text[i]) > 15 || digit(text[i + 1]) > 15)
            return 0;
        bytes[i / 2] = (uint8_t)(16 * digit(text[i]) + digit(text[i + 1]));
    }
    return size / 2;
}

/* The number that the first size characters spell, of 1 to 6 decimal digits, or 0. */
static uint32_t number_of(const char *text, size_t size)
{
    uint32_t number = 0;

    if (size < 1 || size > 6)
        return 0;
    for (size_t i = 0; i < size; i++) {
        if (digit(text[i]) > 9)
            return 0;
        number = 10 * number + digit(text[i]);
    }
    return number;
}

/* Prints the outcome of a call: text if it was done. */
static void print(int32_t outcome, const char *text)
{
    static const char *const names[] = {"", "mute\n", "dark\n", "lost\n"};

    fputs(outcome == SOFFITFENNEL_DONE ? text : names[outcome], stdout);
}

static void print_bytes(int32_t outcome, const uint8_t *bytes, size_t size)
{
    print(outcome, "< ");
    for (size_t i = 0; i < size; i++)
        printf("%02X", bytes[i]);
    if (outcome == SOFFITFENNEL_DONE)
        printf("\n");
}

static void print_free(soffitfennel_card **card)
{
    uint16_t blocks, entries;
    int32_t outcome = soffitfennel_free_space(card, &blocks, &entries);

    print(outcome, "");
    if (outcome == SOFFITFENNEL_DONE)
        printf("free %u %u\n", (unsigned)blocks, (unsigned)entries);
}

/* Runs an order with bytes or numbers. False: it is none. */
static bool run_given(soffitfennel_card **card, const char *line)
{
    uint8_t bytes[SOFFITFENNEL_BLOCK], answer[SOFFITFENNEL_ROOM], mask[2];
    size_t count, size, length = strlen(line);

    if (strncmp(line, "apdu ", 5) == 0) {
        if ((count = bytes_of(line + 5, bytes, SOFFITFENNEL_COMMAND)) == 0)
            return false;
        int32_t outcome = soffitfennel_command(card, bytes, count, answer, sizeof answer, &size);
        print_bytes(outcome, answer, size);
        return true;
    }
    if (strncmp(line, "block ", 6) == 0) {
        if ((count = bytes_of(line + 6, bytes, SOFFITFENNEL_BLOCK)) == 0)
            return false;
        int32_t outcome = soffitfennel_block(card, bytes, count, answer, sizeof answer, &size);
        print_bytes(outcome, answer, size);
        return true;
    }
    if (strncmp(line, "lose ", 5) == 0)
        return soffitfennel_lose(card, number_of(line + 5, length - 5)) == SOFFITFENNEL_DONE;
    if (strncmp(line, "garble ", 7) == 0)
        return soffitfennel_garble(card, number_of(line + 7, length - 7)) == SOFFITFENNEL_DONE;
    if (strncmp(line, "cut ", 4) != 0 || length < 9 || line[length - 5] != ' '
        || bytes_of(line + length - 4, mask, 2) != 2)
        return false;
    uint32_t number = number_of(line + 4, length - 9);
    return soffitfennel_cut(card, number, (uint16_t)(256 * mask[0] + mask[1])) == SOFFITFENNEL_DONE;
}

/* Runs a line. False: it is none of the language. */
static bool run(soffitfennel_card **card, const char *line)
{
    if (*line == 0 || *line == '#')
        return true;
    if (strcmp(line, "on") == 0)
        print(soffitfennel_power_on(card), "atr 3B808131FE458B\n");
    else if (strcmp(line, "off") == 0)
        soffitfennel_power_off(card);
    else if (strcmp(line, "free") == 0)
        print_free(card);
    else
        return run_given(card, line);
    return true;
}

/* Reads a line without its end: 1 with more to come, 0 at the end of the script, -1 of one that is too long or that is
 * no text, -2 if it can't be read. */
static int read_line(char *line, size_t *taken)
{
    size_t size = 0;
    int c;

    while ((c = getchar()) != EOF && c != '\n') {
        if (++*taken > SCRIPT_LIMIT)
            return -2;
        if (size > LINE_LIMIT)
            return -1;
        line[size++] = (char)c;
    }
    if (ferror(stdin) || (c == '\n' && ++*taken > SCRIPT_LIMIT))
        return -2;
    if (c == '\n' && size > 0 && line[size - 1] == '\r')
        size--;
    line[size] = 0;
    return size > LINE_LIMIT || (*line != '#' && strlen(line) != size) ? -1 : c == '\n';
}

int main(void)
{
    char line[LINE_LIMIT + 2];
    soffitfennel_card *card = NULL;
    size_t taken = 0;
    int status = 0, more = 1;

    if (soffitfennel_factory(&card, SOFFITFENNEL_PAGES) != SOFFITFENNEL_DONE)
        return NO_MEMORY;
    for (unsigned long number = 1; status == 0 && more == 1; number++) {
        more = read_line(line, &taken);
        if (more == -2) {
            status = UNREADABLE;
        } else if (more == -1 || !run(&card, line)) {
            fprintf(stderr, "error line %lu\n", number);
            status = BAD_LINE;
        } else if (fflush(stdout) != 0) {
            status = UNWRITABLE;
        }
    }
    soffitfennel_free(&card);
    return status;
}
