"""Sends lines of hexadecimal digits to the first reader's card, by pyscard's lowest level: send.py [t0] LINE..

The words "!rm FILE" remove a file between two commands.
"""
import os
import sys

from smartcard.scard import (
    SCARD_LEAVE_CARD,
    SCARD_PCI_T0,
    SCARD_PCI_T1,
    SCARD_PROTOCOL_T0,
    SCARD_PROTOCOL_T1,
    SCARD_SCOPE_USER,
    SCARD_SHARE_SHARED,
    SCardConnect,
    SCardDisconnect,
    SCardEstablishContext,
    SCardGetErrorMessage,
    SCardListReaders,
    SCardReleaseContext,
    SCardStatus,
    SCardTransmit,
)

has_t0 = sys.argv[1] == "t0"
code, context = SCardEstablishContext(SCARD_SCOPE_USER)
if code:
    sys.exit(SCardGetErrorMessage(code))
names = SCardListReaders(context, [])[1]
protocol, pci = (SCARD_PROTOCOL_T0, SCARD_PCI_T0) if has_t0 else (SCARD_PROTOCOL_T1, SCARD_PCI_T1)
for number, name in enumerate(names):
    code, card, _ = SCardConnect(context, name, SCARD_SHARE_SHARED, protocol)
    if code:
        sys.exit(SCardGetErrorMessage(code))
    print(name, bytes(SCardStatus(card)[4]).hex().upper())
    lines = iter(sys.argv[1 + has_t0 :] if number == 0 else [])
    for line in lines:
        if line == "!rm":
            os.unlink(next(lines))
            continue
        code, answer = SCardTransmit(card, pci, list(bytes.fromhex(line)))
        print(bytes(answer).hex().upper() if not code else SCardGetErrorMessage(code))
    SCardDisconnect(card, SCARD_LEAVE_CARD)
SCardReleaseContext(context)
