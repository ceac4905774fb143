/* Buffers that are too small, that are asked for, and pointers that are null: what each call of PC/SC returns. Its
 * output by pcscd is buffers.out. */
#include <dlfcn.h>
#include <reader.h>
#include <stdio.h>
#include <stdlib.h>
#include <string.h>
#include <winscard.h>

static const char reader[] = "Soffitfennel 00 00";
static const BYTE read_iccid[] = {0x00, 0xB0, 0x82, 0x00, 0x0A};

#define FIND(name) __typeof__(&name) p_##name = (__typeof__(&name))dlsym(library, #name)

/* A call's code, and then a size that it may have changed. */
#define SHOW(what, call, size)                                            \
    do {                                                                  \
        LONG code = (call);                                               \
        printf("%s %08lX %lu\n", what, code & 0xFFFFFFFF, (DWORD)(size)); \
    } while (0)

int main(void)
{
    void *library = dlopen("libpcsclite.so.1", RTLD_NOW);
    SCARDCONTEXT context;
    SCARDHANDLE card;
    DWORD active, size, name_size, state;
    BYTE bytes[300];
    char text[100], *made = NULL;

    if (library == NULL)
        return 1;
    FIND(SCardEstablishContext);
    FIND(SCardConnect);
    FIND(SCardListReaders);
    FIND(SCardFreeMemory);
    FIND(SCardStatus);
    FIND(SCardTransmit);
    FIND(SCardGetAttrib);
    FIND(SCardGetStatusChange);
    FIND(SCardReleaseContext);
    SCARD_IO_REQUEST one = {SCARD_PROTOCOL_T1, sizeof one};
    SHOW("null context", p_SCardEstablishContext(SCARD_SCOPE_USER, NULL, NULL, NULL), 0);
    SHOW("scope", p_SCardEstablishContext(9, NULL, NULL, &context), 0);
    SHOW("context", p_SCardEstablishContext(SCARD_SCOPE_USER, NULL, NULL, &context), 0);
    SHOW("null size", p_SCardListReaders(context, NULL, text, NULL), 0);
    SHOW("size of names", p_SCardListReaders(context, NULL, NULL, &size), size);
    size = 3;
    SHOW("few names", p_SCardListReaders(context, NULL, text, &size), size);
    size = SCARD_AUTOALLOCATE;
    SHOW("names made", p_SCardListReaders(context, NULL, (LPSTR)&made, &size), size);
    printf("%s\n", made);
    SHOW("free", p_SCardFreeMemory(context, made), 0);
    SHOW("null handle", p_SCardConnect(context, reader, SCARD_SHARE_SHARED, SCARD_PROTOCOL_T1, NULL, &active), 0);
    SHOW("null reader", p_SCardConnect(context, NULL, SCARD_SHARE_SHARED, SCARD_PROTOCOL_T1, &card, &active), 0);
    SHOW("connect", p_SCardConnect(context, reader, SCARD_SHARE_SHARED, SCARD_PROTOCOL_T1, &card, &active), active);
    size = 5, name_size = sizeof text;
    SHOW("small answer to reset", p_SCardStatus(card, text, &name_size, &state, &active, bytes, &size), size);
    size = sizeof bytes, name_size = 4;
    SHOW("small name", p_SCardStatus(card, text, &name_size, &state, &active, bytes, &size), name_size);
    SHOW("nothing asked", p_SCardStatus(card, NULL, NULL, NULL, NULL, NULL, NULL), 0);
    size = 3;
    SHOW("small answer", p_SCardTransmit(card, &one, read_iccid, sizeof read_iccid, NULL, bytes, &size), size);
    size = sizeof bytes;
    SHOW("null command", p_SCardTransmit(card, &one, NULL, 5, NULL, bytes, &size), 0);
    SHOW("null answer", p_SCardTransmit(card, &one, read_iccid, sizeof read_iccid, NULL, NULL, &size), 0);
    size = sizeof bytes;
    SHOW("answer", p_SCardTransmit(card, &one, read_iccid, sizeof read_iccid, NULL, bytes, &size), size);
    size = 2;
    SHOW("small attribute", p_SCardGetAttrib(card, SCARD_ATTR_ATR_STRING, bytes, &size), size);
    SHOW("null attribute", p_SCardGetAttrib(card, SCARD_ATTR_ATR_STRING, bytes, NULL), 0);
    SHOW("size of attribute", p_SCardGetAttrib(card, SCARD_ATTR_ATR_STRING, NULL, &size), size);
    SHOW("null states", p_SCardGetStatusChange(context, 0, NULL, 1), 0);
    SCARD_READERSTATE nameless = {0};
    SHOW("null name", p_SCardGetStatusChange(context, 0, &nameless, 1), 0);
    SHOW("release", p_SCardReleaseContext(context), 0);
    return 0;
}
