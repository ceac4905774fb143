"""A client without standard streams: it lists the readers, and writes a message to each stream."""
import os

from smartcard.scard import SCARD_SCOPE_USER, SCardEstablishContext, SCardListReaders

os.closerange(0, 3)
context = SCardEstablishContext(SCARD_SCOPE_USER)[1]
SCardListReaders(context, [])
for stream in range(3):
    try:
        os.write(stream, b"message")
    except OSError:
        pass
