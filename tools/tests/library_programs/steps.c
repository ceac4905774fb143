/* Runs VERIFY with a right value and with wrong ones, instruction by instruction: steps. Up to the first store all run
 * the same instructions, and all wrong values the same to the end, whatever byte differs first. So the time before the
 * charge is stored tells nothing of the PIN, and the time behind it only whether it was right. If the device refuses
 * the charge, all values run the same instructions to the end. x86-64 alone. The status is 77 where the system lets no
 * program be traced. */
#include "soffitfennel.h"

#include <signal.h>
#include <stdbool.h>
#include <stdio.h>
#include <stdlib.h>
#include <string.h>
#include <sys/ptrace.h>
#include <sys/user.h>
#include <sys/wait.h>
#include <unistd.h>

enum { MOST = 1 << 20, UNTRACED = 77, DEVICE = 7 };

/* The addresses of the instructions of a call, and how many were run before the first store. */
struct trace {
    size_t count, stored;
    unsigned long at[MOST];
};

static struct trace first, second;
static soffitfennel_card *card;
static bool refuses;

/* (it writes nothing: each child has the same card) */
int64_t soffitfennel_store(int32_t device, const void *bytes, size_t size, int64_t offset)
{
    (void)device, (void)bytes, (void)offset;
    return refuses ? -1 : (int64_t)size;
}

static void verify(const char *value)
{
    uint8_t command[] = {0x00, 0x20, 0x00, 0x01, 8, 0, 0, 0, 0, 0xFF, 0xFF, 0xFF, 0xFF}, answer[SOFFITFENNEL_ROOM];
    size_t size;

    memcpy(command + 5, value, 8);
    if (ptrace(PTRACE_TRACEME, 0, NULL, NULL) != 0)
        _exit(UNTRACED);
    raise(SIGSTOP);
    int32_t outcome = soffitfennel_command(&card, command, sizeof command, answer, sizeof answer, &size);
    _exit(outcome != (refuses ? SOFFITFENNEL_UNSTORED : SOFFITFENNEL_DONE));
}

/* The instructions of a VERIFY with a value. */
static void trace(const char *value, struct trace *trace)
{
    struct user_regs_struct registers;
    bool is_in = false;
    int status;
    pid_t child = fork();

    if (child == 0)
        verify(value);
    trace->count = 0, trace->stored = MOST;
    waitpid(child, &status, 0);
    while (WIFSTOPPED(status)) {
        if (ptrace(PTRACE_GETREGS, child, NULL, &registers) != 0)
            exit(UNTRACED);
        is_in = is_in || registers.rip == (unsigned long)soffitfennel_command;
        if (registers.rip == (unsigned long)soffitfennel_store && trace->stored == MOST)
            trace->stored = trace->count;
        if (is_in && trace->count < MOST)
            trace->at[trace->count++] = registers.rip;
        ptrace(PTRACE_SINGLESTEP, child, NULL, NULL);
        waitpid(child, &status, 0);
    }
    if (!WIFEXITED(status) || WEXITSTATUS(status) != 0)
        exit(WIFEXITED(status) ? WEXITSTATUS(status) : 1);
}

/* How many instructions both traces begin with alike. */
static size_t common(void)
{
    size_t alike = 0;

    while (alike < first.count && alike < second.count && first.at[alike] == second.at[alike])
        alike++;
    return alike;
}

int main(void)
{
    static const char *const wrong[] = {
        "9234\xFF\xFF\xFF\xFF", "1934\xFF\xFF\xFF\xFF", "1294\xFF\xFF\xFF\xFF", "1239\xFF\xFF\xFF\xFF",
        "1234\xFE\xFF\xFF\xFF", "1234\xFF\xFF\xFF\xFE", "98765432",
    };
    static uint32_t words[SOFFITFENNEL_WORDS];
    static char line[BUFSIZ];
    size_t size;

    /* (each child has the same heap: what is printed asks for nothing) */
    setvbuf(stdout, line, _IOFBF, sizeof line);
    if (soffitfennel_factory(&card, SOFFITFENNEL_PAGES) != SOFFITFENNEL_DONE
        || soffitfennel_words(&card, words, SOFFITFENNEL_WORDS, &size) != SOFFITFENNEL_DONE
        || soffitfennel_attach(&card, words, size, DEVICE) != SOFFITFENNEL_DONE
        || soffitfennel_power_on(&card) != SOFFITFENNEL_DONE)
        return 1;
    trace("1234\xFF\xFF\xFF\xFF", &first);
    trace(wrong[0], &second);
    bool is_good = first.stored == second.stored && first.stored < MOST && common() > first.stored;
    printf("steps: right %zu, wrong %zu, alike %zu, ", first.count, second.count, common());
    printf("first store %zu\n", first.stored);
    for (size_t i = 1; i < sizeof wrong / sizeof *wrong; i++) {
        trace(wrong[i], &first);
        if (common() != first.count || first.count != second.count)
            is_good = !printf("steps: wrong value %zu runs other instructions from %zu on\n", i, common());
    }
    refuses = true;
    trace("1234\xFF\xFF\xFF\xFF", &first);
    trace(wrong[0], &second);
    if (common() != first.count || first.count != second.count)
        is_good = !printf("steps: behind a refused charge, values run other instructions from %zu on\n", common());
    return !is_good;
}
