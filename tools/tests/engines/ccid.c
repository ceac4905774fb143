/* The CCID driver's end of T=1 for tools/badcard: openct/proto-t1.c of Debian's source package ccid, unchanged. Behind
 * it is a reader that passes on what the card sends, in place of commands.c. The session begins as in ifdhandler.c. */
#include "reader_lines.h"

#include <config.h>
#include <pcsclite.h>
#include <ifdhandler.h>

#include <ccid.h>
#include <commands.h>
#include <debug.h>
#include <openct/proto-t1.h>

/* TA3 of the card's ATR, and the most that such a reader takes. */
enum { FIELD_SIZE = 254, PATIENCE = 3000 };

_Atomic int LogLevel;

static _ccid_descriptor descriptor = {.readTimeout = PATIENCE};
static t1_state_t engine;
static uint8_t received[LINE / 2];
static size_t received_size;

_ccid_descriptor *get_ccid_descriptor(unsigned int reader_index)
{
    (void)reader_index;
    return &descriptor;
}

/* The reader takes whole blocks. */
int isCharLevel(int reader_index)
{
    (void)reader_index;
    return 0;
}

void log_msg(const int priority, const char *format, ...)
{
    (void)priority;
    (void)format;
}

void log_xxd(const int priority, const char *words, const unsigned char *bytes, const int size)
{
    (void)priority;
    (void)words;
    (void)bytes;
    (void)size;
}

RESPONSECODE CCID_Transmit(unsigned int reader_index, unsigned int size, const unsigned char block[],
                           unsigned short least, unsigned char waiting)
{
    (void)reader_index;
    (void)least;
    (void)waiting;
    received_size = exchange_blocks(block, size, received, sizeof received);
    return IFD_SUCCESS;
}

/* The outcomes are those of commands.c: a card that says nothing, and a block that is too long for the buffer. */
RESPONSECODE CCID_Receive(unsigned int reader_index, unsigned int *size, unsigned char block[], unsigned char *chain)
{
    bool is_whole = received_size <= *size;

    (void)reader_index;
    (void)chain;
    if (received_size == 0)
        return IFD_COMMUNICATION_ERROR;
    if (is_whole)
        *size = (unsigned)received_size;
    memcpy(block, received, *size);
    return is_whole ? IFD_SUCCESS : IFD_ERROR_INSUFFICIENT_BUFFER;
}

/* Begins a session, as IFDHSetProtocolParameters does for a reader that leaves T=1 to its driver. */
static bool power_on(char line[LINE])
{
    if (!ask(line))
        return false;
    t1_init(&engine, 0);
    t1_set_param(&engine, IFD_PROTOCOL_T1_IFSC, FIELD_SIZE);
    t1_negotiate_ifsd(&engine, 0, FIELD_SIZE);
    t1_set_param(&engine, IFD_PROTOCOL_T1_IFSD, FIELD_SIZE);
    return true;
}

/* Carries a command out, as CmdXfrBlockTPDU_T1 does, with the buffer of pcscd. */
static void transmit(const uint8_t *command, size_t count)
{
    uint8_t answer[MAX_BUFFER_SIZE];
    int size = t1_transceive(&engine, 0, command, count, answer, sizeof answer);

    print_answer(size >= 0, answer, size < 0 ? 0 : (size_t)size);
}

int main(int count, char **words)
{
    if (!start_card(count, words))
        return 2;
    serve(power_on, transmit);
    return 0;
}
