# A client arms a power cut, a lost and a garbled block in the reader Soffitfennel, by SCardControl. Its DEVICENAME ends
# with :faults. The update that is cut is taken back, and a fault of the line changes no answer.
import time
from typing import Any

from smartcard.Exceptions import CardConnectionException, NoCardException
from smartcard.scard import SCARD_CTL_CODE
from smartcard.System import readers
from smartcard.util import toBytes, toHexString

CUT, LOSE, GARBLE = (SCARD_CTL_CODE(code) for code in (1, 2, 3))


def ask(card: Any, command: str) -> None:
    try:
        data, sw1, sw2 = card.transmit(toBytes(command))
        print(command, "->", toHexString(data), "%02X%02X" % (sw1, sw2))
    except CardConnectionException as error:
        print(command, "->", type(error).__name__)


def insert() -> Any:
    for _ in range(120):
        try:
            card = next(it for it in readers() if "Soffitfennel" in str(it)).createConnection()
            card.connect()
            return card
        except (StopIteration, NoCardException):
            time.sleep(0.5)
    raise SystemExit("no card")


card = insert()
ask(card, "00A4000C022FE2")
ask(card, "002000010831323334FFFFFFFF")
card.control(LOSE, toBytes("00000001"))
card.control(GARBLE, toBytes("00000002"))
ask(card, "00B0000004")
card.control(CUT, toBytes("000000030001"))
ask(card, "00D600000401020304")
del card
time.sleep(3)
card = insert()
ask(card, "00B0820004")
