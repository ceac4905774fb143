"""Threads that share a card by transactions: each selects a file of its own and reads it, and answers never mix."""
from __future__ import annotations

import threading

import smartcard.scard as pc

READER, ROUNDS = "Soffitfennel 00 00", 200
FILES = {"2FE2": "98940400000000000010", "2F05": "656E6465", "2F00": "61244F10", "2F08": "0000000000"}
wrong: list[tuple[str, tuple[str, str]]] = []


def send(card: int, text: str) -> str:
    code, answer = pc.SCardTransmit(card, pc.SCARD_PCI_T1, list(bytes.fromhex(text)))
    return bytes(answer).hex().upper() if code == 0 else hex(code & 0xFFFFFFFF)


def work(identifier: str, wanted: str) -> None:
    for number in range(ROUNDS):
        context = pc.SCardEstablishContext(pc.SCARD_SCOPE_USER)[1]
        code, card, _ = pc.SCardConnect(context, READER, pc.SCARD_SHARE_SHARED, pc.SCARD_PROTOCOL_T1)
        pc.SCardBeginTransaction(card)
        if code == 0 and number % 3 == 0:
            send(card, "00A4000C023F00")
        came = send(card, f"00A4000C02{identifier}"), send(card, f"00B00000{len(wanted) // 2:02X}")
        if identifier == "2F00":
            came = came[0], send(card, "00B2010430")[:8] + "9000"
        pc.SCardEndTransaction(card, pc.SCARD_LEAVE_CARD)
        if came != ("9000", f"{wanted}9000"):
            wrong.append((identifier, came))
        pc.SCardDisconnect(card, pc.SCARD_LEAVE_CARD)
        pc.SCardReleaseContext(context)


# (one context stays, so that the card isn't put back while others come and go)
kept = pc.SCardEstablishContext(pc.SCARD_SCOPE_USER)[1]
threads = [threading.Thread(target=work, args=it) for it in FILES.items()]
for it in threads:
    it.start()
for it in threads:
    it.join()
pc.SCardReleaseContext(kept)
print("wrong:", len(wrong), wrong[:3])
