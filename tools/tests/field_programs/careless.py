"""A reader's end of T=1 that is careless on purpose: it checks nothing, and sends a command again where it is in doubt.

careless.py MODE -- CARD..: crash and hang do so at the first block that isn't an I-block.
"""
import os
import subprocess
import sys
import time
from functools import reduce
from operator import xor

mode, words = sys.argv[1], sys.argv[sys.argv.index("--") + 1 :]
card = subprocess.Popen(words, stdin=subprocess.PIPE, stdout=subprocess.PIPE, text=True, bufsize=1)
assert card.stdin and card.stdout
lines_out, lines_in = card.stdin, card.stdout


def ask(line: str) -> str:
    lines_out.write(f"{line}\n")
    lines_out.flush()
    return lines_in.readline().rstrip("\n")


def send(number: int, field: bytes, more: bool) -> bytes:
    block = bytes([0, number << 6 | more << 5, len(field)]) + field
    return bytes.fromhex(ask(f"block {(block + bytes([reduce(xor, block)])).hex()}")[2:])


def command(data: bytes) -> bytes:
    global number
    while len(data) > 254:
        send(number, data[:254], True)
        number, data = 1 - number, data[254:]
    got = send(number, data, False)
    if got[1:2] and got[1] & 0x80:
        if mode == "crash":
            os.abort()
        time.sleep(60 if mode == "hang" else 0)
        number = 1 - number
        got = send(number, data, False)
    number = 1 - number
    return got[3:-1]


number = 0
for line in sys.stdin:
    if line.startswith("apdu "):
        print("<", command(bytes.fromhex(line[5:])).hex().upper(), flush=True)
    else:
        number = 0
        print(ask(line.rstrip("\n")), flush=True)
