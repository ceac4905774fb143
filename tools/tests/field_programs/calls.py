"""Calls of PC/SC in order, and what each gives: calls.py. Its output by pcscd and the reader driver is calls.out.

States of readers are shown without their counters of events.
"""
from __future__ import annotations

import threading
import time
from collections.abc import Callable
from contextlib import redirect_stdout
from io import StringIO
from typing import Any

import smartcard.scard as pc

READER = "Soffitfennel 00 00"
NOTIFICATION = "\\\\?PnP?\\Notification"
NAMES = {getattr(pc, it) & 0xFFFFFFFF: it for it in dir(pc) if it.startswith(("SCARD_E_", "SCARD_W_", "SCARD_S_"))}
T0, T1 = pc.SCARD_PROTOCOL_T0, pc.SCARD_PROTOCOL_T1
SHARED, EXCLUSIVE, DIRECT = pc.SCARD_SHARE_SHARED, pc.SCARD_SHARE_EXCLUSIVE, pc.SCARD_SHARE_DIRECT
LEAVE, RESET, UNPOWER = pc.SCARD_LEAVE_CARD, pc.SCARD_RESET_CARD, pc.SCARD_UNPOWER_CARD
UNAWARE, PRESENT, EMPTY = pc.SCARD_STATE_UNAWARE, pc.SCARD_STATE_PRESENT, pc.SCARD_STATE_EMPTY
IN_USE, ALONE = PRESENT | pc.SCARD_STATE_INUSE, PRESENT | pc.SCARD_STATE_EXCLUSIVE
SELECT, READ = "00A4000C022FE2", "00B000000A"
# seconds that a call which doesn't wait for another one may take, on a machine that other programs use too
AT_ONCE = 60
# a card that lost power is out for a second at least; how often it loses power until the calls were made within it
OUT_FOR, TRIES = 1.0, 10


def show(what: str, result: Any) -> None:
    """Prints a call's code, and what else it gives."""
    code, *rest = result if isinstance(result, (list, tuple)) else [result]
    print(what, NAMES.get(code & 0xFFFFFFFF, hex(code)), *rest, flush=True)


def code_of(what: str, result: Any) -> None:
    """Prints a call's code alone."""
    show(what, result[:1])


def states(what: str, context: int, wait: int, *known: tuple[str, int]) -> None:
    code, *rows = pc.SCardGetStatusChange(context, wait, list(known))
    show(what, [code, [(name, hex(state & 0xFFFF), len(atr)) for name, state, atr in (rows[0] if rows else [])]])


def connect(what: str, context: int, share: int = SHARED, protocols: int = T1) -> int:
    code, card, active = pc.SCardConnect(context, READER, share, protocols)
    show(what, [code, active])
    return int(card)


def status(what: str, card: int) -> int:
    code, *rest = pc.SCardStatus(card)
    show(what, [code, rest[0], hex(rest[1] & 0xFFFF), rest[2], bytes(rest[3]).hex()] if code == 0 else [code])
    return int(code)


def send(what: str, card: int, text: str, form: Any = pc.SCARD_PCI_T1) -> None:
    code, *rest = pc.SCardTransmit(card, form, list(bytes.fromhex(text)))
    show(what, [code, bytes(rest[0]).hex()] if code == 0 else [code])


def outside(what: str, owner: int, call: Callable[[], Any], seconds: int = 2) -> None:
    """A call of another connection while a transaction of depth 2 is open: whether it waits for its end, so long."""
    found: list[Any] = []
    thread = threading.Thread(target=lambda: found.append(call()))
    thread.start()
    thread.join(seconds)
    print(what, "is told at once" if found else "waits", flush=True)
    if not found:
        for _ in range(2):
            pc.SCardEndTransaction(owner, LEAVE)
        thread.join(60)
        for _ in range(2):
            pc.SCardBeginTransaction(owner)
    code_of(what, found[0])


def names_and_states(first: int) -> None:
    """Names of readers, and what is known of a card that nobody has connected to."""
    show("groups", pc.SCardListReaderGroups(first))
    show("readers", pc.SCardListReaders(first, []))
    show("valid", pc.SCardIsValidContext(first))
    show("invalid", pc.SCardIsValidContext(12345))
    for what, known in (("unaware", UNAWARE), ("present", PRESENT), ("empty", EMPTY), ("in use", IN_USE)):
        states(what, first, 0, (READER, known))
    states("ignored", first, 0, (READER, pc.SCARD_STATE_IGNORE))
    states("unknown reader", first, 0, ("No such reader", UNAWARE))
    states("no readers", first, 0)
    states("notification", first, 0, (NOTIFICATION, UNAWARE))
    states("notification and reader", first, 10, (NOTIFICATION, UNAWARE), (READER, PRESENT))


def wrong_connections(first: int) -> None:
    """Connections that are refused."""
    code_of("connect elsewhere", pc.SCardConnect(first, "No such reader", SHARED, T1))
    code_of("connect without protocol", pc.SCardConnect(first, READER, SHARED, 0))
    code_of("connect T=0", pc.SCardConnect(first, READER, SHARED, T0))
    code_of("connect badly", pc.SCardConnect(first, READER, 9, T1))
    code_of("connect to nothing", pc.SCardConnect(77, READER, SHARED, T1))


def commands(first: int, second: int) -> tuple[int, int]:
    """Commands of one connection; it and another one."""
    card = connect("connect", first, SHARED, T0 | T1)
    status("status", card)
    for what, known in (("seen in use", PRESENT), ("known in use", IN_USE), ("known exclusive", ALONE)):
        states(what, first, 0, (READER, known))
    send("select", card, SELECT)
    send("read", card, READ)
    send("one byte", card, "00")
    send("too long", card, "00" * 300)
    send("T=0", card, READ, pc.SCARD_PCI_T0)
    code_of("transmit to nothing", pc.SCardTransmit(77, pc.SCARD_PCI_T1, [0]))
    code_of("exclusive beside", pc.SCardConnect(second, READER, EXCLUSIVE, T1))
    return card, connect("second", second)


def transactions(card: int, other: int, second: int) -> None:
    """Transactions: what other connections may do meanwhile."""
    show("begin", pc.SCardBeginTransaction(card))
    show("begin again", pc.SCardBeginTransaction(card))
    send("within", card, READ)
    apdu = list(bytes.fromhex(READ))
    outside("transmit from outside", card, lambda: pc.SCardTransmit(other, pc.SCARD_PCI_T1, apdu))
    outside("control from outside", card, lambda: pc.SCardControl(other, pc.SCARD_CTL_CODE(3400), []), AT_ONCE)
    outside("status from outside", card, lambda: pc.SCardStatus(other))
    attribute = pc.SCARD_ATTR_ATR_STRING
    outside("attribute from outside", card, lambda: pc.SCardGetAttrib(other, attribute), AT_ONCE)
    outside("reconnect from outside", card, lambda: pc.SCardReconnect(other, SHARED, T1, LEAVE))

    def join() -> Any:
        found = pc.SCardConnect(second, READER, SHARED, T1)
        pc.SCardDisconnect(found[1], LEAVE)
        return found

    outside("connect from outside", card, join)
    show("end from outside", pc.SCardEndTransaction(other, LEAVE))
    show("end", pc.SCardEndTransaction(card, LEAVE))
    outside("still within", card, lambda: pc.SCardStatus(other))
    show("end twice", pc.SCardEndTransaction(card, LEAVE))
    show("end thrice", pc.SCardEndTransaction(card, LEAVE))


def waiting(card: int, other: int) -> None:
    """A transaction that waits for another one's end, and one that ends with a reset."""
    found: list[Any] = []
    show("begin", pc.SCardBeginTransaction(card))
    begun = time.monotonic()
    thread = threading.Thread(target=lambda: found.extend((pc.SCardBeginTransaction(other), time.monotonic())))
    thread.start()
    time.sleep(0.5)
    show("end after a while", pc.SCardEndTransaction(card, LEAVE))
    thread.join(60)
    print("waited", NAMES[found[0]], found[1] - begun > 0.4)
    show("end", pc.SCardEndTransaction(other, RESET))
    send("after a reset", card, READ)
    status("after a reset", card)
    show("begin after a reset", pc.SCardBeginTransaction(card))
    show("reconnect", pc.SCardReconnect(card, SHARED, T1, LEAVE))
    send("after reconnect", card, READ)
    send("who reset", other, SELECT)


def exclusive(first: int, second: int, card: int, other: int) -> int:
    """A connection that becomes exclusive, and shared again. (pcscd lets nobody else connect until it has ended.)"""
    code_of("reconnect badly", pc.SCardReconnect(card, SHARED, T1, 9))
    code_of("reconnect T=0", pc.SCardReconnect(card, SHARED, T0, LEAVE))
    found: list[Any] = []
    thread = threading.Thread(target=lambda: found.append(pc.SCardReconnect(card, EXCLUSIVE, T1, LEAVE)))
    thread.start()
    thread.join(0.4)
    print("reconnect exclusive", "is told at once" if found else "waits")
    show("disconnect badly", pc.SCardDisconnect(other, 9))
    show("disconnect", pc.SCardDisconnect(other, LEAVE))
    thread.join(60)
    show("reconnect exclusive", found[0])
    show("disconnect twice", pc.SCardDisconnect(other, LEAVE))
    show("exclusive again", pc.SCardReconnect(card, EXCLUSIVE, T1, RESET))
    states("exclusive seen", first, 0, (READER, PRESENT))
    states("in use, exclusive", first, 0, (READER, IN_USE))
    code_of("shared beside", pc.SCardConnect(second, READER, SHARED, T1))
    code_of("direct beside", pc.SCardConnect(second, READER, DIRECT, 0))
    show("reconnect shared", pc.SCardReconnect(card, SHARED, T1, LEAVE))
    states("shared again", first, 0, (READER, ALONE))
    show("disconnect", pc.SCardDisconnect(card, LEAVE))
    return connect("connect", first)


def attributes(card: int) -> None:
    """Attributes and controls."""
    for name in ("ATR_STRING", "VENDOR_NAME", "DEVICE_FRIENDLY_NAME_A", "DEVICE_SYSTEM_NAME_A", "MAXINPUT"):
        code, *rest = pc.SCardGetAttrib(card, getattr(pc, f"SCARD_ATTR_{name}"))
        show(name, [code, bytes(rest[0])] if code == 0 else [code])
    show("set attribute", pc.SCardSetAttrib(card, pc.SCARD_ATTR_VENDOR_NAME, [1]))
    show("features", pc.SCardControl(card, pc.SCARD_CTL_CODE(3400), [])[:2])
    code_of("unknown control", pc.SCardControl(card, pc.SCARD_CTL_CODE(99), [1]))


def timeouts(first: int) -> None:
    """A wait that ends by time, and one that is cancelled."""
    began = time.monotonic()
    states("timeout", first, 300, (READER, IN_USE))
    print("it took", 0.25 < time.monotonic() - began < 60)
    is_over = threading.Event()

    def cancel() -> None:
        # (a wait that hasn't begun yet isn't cancelled)
        while not is_over.wait(0.3):
            pc.SCardCancel(first)

    thread = threading.Thread(target=cancel)
    thread.start()
    states("cancelled", first, 60_000, (READER, IN_USE))
    is_over.set()
    thread.join()
    show("cancel nothing", pc.SCardCancel(77))


def ends(first: int, second: int, card: int) -> None:
    """Ends of connections, and ways to connect."""
    other = pc.SCardConnect(second, READER, SHARED, T1)[1]
    show("disconnect with reset", pc.SCardDisconnect(other, RESET))
    send("reset by another", card, READ)
    show("reconnect", pc.SCardReconnect(card, SHARED, T1, UNPOWER))
    send("after power", card, SELECT)
    show("disconnect by unpower", pc.SCardDisconnect(card, UNPOWER))
    card = connect("direct", first, DIRECT, 0)
    status("direct", card)
    send("direct", card, SELECT)
    show("direct away", pc.SCardDisconnect(card, LEAVE))
    card = connect("exclusive", first, EXCLUSIVE)
    show("begin alone", pc.SCardBeginTransaction(card))
    show("end alone", pc.SCardEndTransaction(card, LEAVE))
    send("alone", card, SELECT)
    show("alone away", pc.SCardDisconnect(card, LEAVE))
    states("free again", first, 0, (READER, ALONE))


def cut(first: int, second: int, card: int) -> bool:
    """A power cut, and calls while the card is out. Whether they were in time: the first ones before pcscd had looked
    for the card, as it does each 0.4 seconds, and the last one before the card was back."""
    send("select", card, SELECT)
    send("verify", card, "002000010831323334FFFFFFFF")
    code_of("set a cut", pc.SCardControl(card, pc.SCARD_CTL_CODE(1), [0, 0, 0, 3, 0, 1]))
    begun = time.monotonic()
    send("cut", card, "00D6000004CAFEBABE")
    send("dark", card, "00B0000004")
    is_unseen = status("dark", card) == pc.SCARD_S_SUCCESS
    states("seen away", first, 1500, (READER, IN_USE))
    found = pc.SCardConnect(second, READER, SHARED, T1)
    code_of("connect away", found)
    is_out = time.monotonic() - begun < OUT_FOR
    if found[0] == pc.SCARD_S_SUCCESS:
        pc.SCardDisconnect(found[1], LEAVE)
    return is_unseen and is_out


def faults(first: int, second: int) -> int:
    """A power cut, by which the card is gone for two seconds, and blocks that are lost and garbled."""
    card = connect("once more", first)
    for _ in range(TRIES):
        told = StringIO()
        with redirect_stdout(told):
            is_in_time = cut(first, second, card)
        if is_in_time:
            break
        while pc.SCardReconnect(card, SHARED, T1, RESET)[0] != pc.SCARD_S_SUCCESS:
            time.sleep(0.1)
    print(told.getvalue(), end="", flush=True)
    states("seen back", first, 60_000, (READER, EMPTY | pc.SCARD_STATE_INUSE))
    send("removed", card, "00B0000004")
    show("reconnect", pc.SCardReconnect(card, SHARED, T1, RESET))
    send("select", card, SELECT)
    send("read", card, READ)
    for what, code, number in (("lost", 2, 1), ("garbled", 3, 2)):
        code_of(f"set a {what} block", pc.SCardControl(card, pc.SCARD_CTL_CODE(code), [0, 0, 0, number]))
        send(f"with a {what} block", card, READ)
    code_of("number 0", pc.SCardControl(card, pc.SCARD_CTL_CODE(2), [0, 0, 0, 0]))
    code_of("clear", pc.SCardControl(card, pc.SCARD_CTL_CODE(4), []))
    return card


def main() -> None:
    first = pc.SCardEstablishContext(pc.SCARD_SCOPE_SYSTEM)[1]
    second = pc.SCardEstablishContext(pc.SCARD_SCOPE_USER)[1]
    # (a service that has just started looks for its readers)
    for _ in range(600):
        if pc.SCardListReaders(first, [])[0] == 0:
            break
        time.sleep(0.1)
    names_and_states(first)
    wrong_connections(first)
    card, other = commands(first, second)
    transactions(card, other, second)
    waiting(card, other)
    card = exclusive(first, second, card, other)
    attributes(card)
    timeouts(first)
    ends(first, second, card)
    card = faults(first, second)
    show("release", pc.SCardReleaseContext(second))
    show("release", pc.SCardReleaseContext(first))
    show("release twice", pc.SCardReleaseContext(first))
    code_of("use after release", pc.SCardTransmit(card, pc.SCARD_PCI_T1, [0]))


main()
