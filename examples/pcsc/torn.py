# An update is torn, and the reader sees the card go. When it is back the bytes are the old ones, and the update
# succeeds. The file asks for PIN 1: to verify it makes two device writes, so that the third one of the update is the
# fifth.
# Run over: tools/pcsc --cut 5 0001
import time
from typing import Any
from smartcard.Exceptions import CardConnectionException, NoCardException
from smartcard.System import readers
from smartcard.util import toBytes, toHexString


def ask(card: Any, command: str) -> None:
    data, sw1, sw2 = card.transmit(toBytes(command))
    print(command, "->", toHexString(data), "%02X%02X" % (sw1, sw2))


def insert() -> Any:
    for _ in range(20):
        try:
            card = readers()[0].createConnection()
            card.connect()
            print("card, answer to reset", toHexString(card.getATR()))
            return card
        except NoCardException:
            time.sleep(0.5)
    raise SystemExit("no card")


card = insert()
ask(card, "00A4000C022FE2")
ask(card, "00B000000A")
ask(card, "002000010831323334FFFFFFFF")
try:
    ask(card, "00D600000401020304")
except CardConnectionException as error:
    print("00D600000401020304 ->", type(error).__name__)
del card
time.sleep(3)
card = insert()
ask(card, "00B082000A")
ask(card, "00D68200040A0B0C0D")
ask(card, "002000010831323334FFFFFFFF")
ask(card, "00D68200040A0B0C0D")
ask(card, "00B082000A")
