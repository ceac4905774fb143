"""A card in Python. The answers are those of examples/torn_pair.out and docs/CARD.md."""

from __future__ import annotations

import copy
import doctest
import fcntl
import os
import pickle
import subprocess
import sys
import tempfile
import threading
import unittest
from pathlib import Path
from typing import Any, Callable

import soffitfennel
from soffitfennel import ATR, PAGES, Card, CardError, Outcome, Reader, State

SELECT_ICCID = bytes.fromhex("00A4000C022FE2")
READ_ICCID = bytes.fromhex("00B000000A")
ICCID = bytes.fromhex("981032547698103254769000")
VERIFY = bytes.fromhex("002000010831323334FFFFFFFF")
UPDATE = bytes.fromhex("00D600000401020304")
THREADS, COMMANDS = 4, 20_000


def powered(words: list[int] | None = None) -> Card:
    """A card with power on."""
    card = Card(words)
    assert card.power_on() == ATR
    return card


def iccid(card: Card) -> bytes:
    """The answer to READ BINARY of the ICCID."""
    card.transmit(SELECT_ICCID)
    return card.transmit(READ_ICCID)


def image_of(card: Card) -> bytes:
    """The bytes of a card's words."""
    return b"".join(word.to_bytes(4, "big") for word in card.words())


class Cards(unittest.TestCase):
    """Cards of the library."""

    def fails(self, outcome: Outcome, call: Callable[..., Any], *given: Any) -> None:
        """The call has this outcome."""
        with self.assertRaises(CardError) as raised:
            call(*given)
        self.assertIs(raised.exception.outcome, outcome)
        self.assertEqual(str(raised.exception), outcome.name.lower().replace("_", " "))

    def test_iccid(self) -> None:
        self.assertEqual(iccid(powered()), ICCID)

    def test_cut(self) -> None:
        card = powered()
        card.transmit(SELECT_ICCID)
        self.assertEqual(card.transmit(VERIFY), b"\x90\x00")
        card.cut(3, 1)
        self.fails(Outcome.DARK, card.transmit, UPDATE)
        self.fails(Outcome.MUTE, card.transmit, READ_ICCID)
        other = powered(card.words())
        card.power_on()
        self.assertEqual([iccid(card), iccid(other)], [ICCID, ICCID])

    def test_words(self) -> None:
        words = Card().words()
        for given in ([1 << 32, *words[1:]], [-1, *words[1:]]):
            with self.assertRaises(ValueError):
                Card(given)

    def test_pages(self) -> None:
        self.assertEqual([len(Card(pages=it).words()) for it in (PAGES, 4096)], [16_384, 65_536])
        for pages in (0, PAGES - 1, 4097, -1, 1 << 40):
            with self.assertRaises(CardError):
                Card(pages=pages)

    def test_line(self) -> None:
        card = powered()
        card.lose(2)
        card.garble(5)
        self.assertEqual(iccid(card), ICCID)

    def test_state(self) -> None:
        card = Card()
        self.assertEqual(card.state(), State(0))
        card.power_on()
        card.cut(3, 1)
        card.lose(2)
        self.assertEqual(card.state(), State.HAS_POWER | State.HAS_CUT | State.HAS_LOSS)
        card.garble(5)
        self.assertIn(State.HAS_GARBLING, card.state())
        card.clear_faults()
        self.assertEqual(card.state(), State(0))
        card.power_on()
        card.transmit(SELECT_ICCID)
        card.transmit(VERIFY)
        self.assertEqual(card.transmit(UPDATE), b"\x90\x00")

    def test_sizes(self) -> None:
        card = powered()
        calls: list[tuple[Callable[..., Any], list[Any]]] = [
            (card.transmit, [b""]),
            (card.transmit, [bytes(262)]),
            (card.block, [bytes(301)]),
            (card.cut, [0, 0]),
            (card.cut, [1, 0x10000]),
            (card.lose, [2**32 + 1]),
            (Card, [[0] * 17]),
        ]
        for call, given in calls:
            self.fails(Outcome.SIZE, call, *given)
        self.fails(Outcome.NO_CARD, Card, [0] * 16_384)

    def test_wrong_types(self) -> None:
        card = powered()
        for given in ("00A4", 5, [0, 0xA4]):
            with self.assertRaisesRegex(TypeError, "bytes.fromhex"):
                card.transmit(given)  # type: ignore[arg-type]
        self.assertEqual(card.transmit(bytearray(SELECT_ICCID)), b"\x90\x00")
        self.assertEqual(card.transmit(memoryview(READ_ICCID)), ICCID)

    def test_outcomes(self) -> None:
        for outcome in Outcome:
            self.assertEqual(str(CardError(outcome)), outcome.name.lower().replace("_", " "))
        self.assertEqual((CardError(77).outcome, str(CardError(77))), (77, "unknown"))

    def test_closed(self) -> None:
        with Card() as card:
            pass
        card.close()
        with self.assertRaises(ValueError):
            card.power_on()

    def test_threads(self) -> None:
        card, wrong = powered(), list[str]()
        card.transmit(SELECT_ICCID)

        def read(number: int) -> None:
            command = bytes([0x00, 0xB0, 0x00, number, number + 2])
            wanted = ICCID[number : 2 * number + 2] + b"\x90\x00"
            for _ in range(COMMANDS):
                answer = card.transmit(command)
                if answer != wanted:
                    wrong.append(f"thread {number}: {answer.hex()}")

        threads = [threading.Thread(target=read, args=[it]) for it in range(THREADS)]
        for thread in threads:
            thread.start()
        for thread in threads:
            thread.join()
        self.assertEqual(wrong, [])

    def test_version(self) -> None:
        self.assertEqual(soffitfennel.library_version(), soffitfennel.__version__)

    def test_examples(self) -> None:
        self.assertEqual(doctest.testmod(soffitfennel).failed, 0)

    def test_no_library(self) -> None:
        for given in ("/nowhere/lib.so", "libc.so.6"):
            ran = subprocess.run(
                [sys.executable, "-c", "import soffitfennel"], text=True, capture_output=True, check=False,
                env={**os.environ, "SOFFITFENNEL_SO": given, "PYTHONPATH": str(Path(__file__).parent)},
            )
            last = ran.stderr.splitlines()[-1]
            self.assertEqual((ran.returncode, last.split(":")[0]), (1, "ImportError"))
            self.assertIn("tools/library builds it, and SOFFITFENNEL_SO names the file", last)


class Files(unittest.TestCase):
    """Cards in files."""

    def setUp(self) -> None:
        folder = tempfile.TemporaryDirectory()
        self.addCleanup(folder.cleanup)
        self.path = Path(folder.name) / "card"
        self.path.write_bytes(image_of(Card()))

    def test_path(self) -> None:
        for sync in (False, True):
            with Card.attach(self.path, sync=sync) as card:
                self.assertEqual(card.state(), State.HAS_DEVICE)
                card.power_on()
                for given in (SELECT_ICCID, VERIFY, UPDATE):
                    self.assertEqual(card.transmit(given), b"\x90\x00")
                    self.assertEqual(self.path.read_bytes(), image_of(card))
        with Card.attach(self.path) as card:
            card.power_on()
            self.assertEqual(iccid(card), UPDATE[5:] + ICCID[4:])

    def test_descriptor_is_its_own(self) -> None:
        file = os.open(self.path, os.O_RDWR)
        card = Card.attach(file)
        os.close(file)
        other = os.open(self.path.with_name("other"), os.O_RDWR | os.O_CREAT)
        self.assertEqual(other, file)
        card.power_on()
        card.transmit(VERIFY)
        self.assertEqual((os.fstat(other).st_size, self.path.read_bytes()), (0, image_of(card)))
        os.close(other)

    def test_unstored(self) -> None:
        file = os.open(self.path, os.O_RDONLY)
        card = Card.attach(file)
        os.close(file)
        with self.assertRaises(CardError) as raised:
            card.power_on()
            card.transmit(VERIFY)
        self.assertIs(raised.exception.outcome, Outcome.UNSTORED)
        self.assertIn(State.IS_UNSTORED, card.state())
        self.assertEqual(self.path.read_bytes(), image_of(Card()))

    def test_one_user(self) -> None:
        with Card.attach(self.path):
            with self.assertRaisesRegex(BlockingIOError, "another program uses the card"):
                Card.attach(self.path)
            with open(self.path, "rb") as other, self.assertRaises(BlockingIOError):
                fcntl.flock(other, fcntl.LOCK_SH | fcntl.LOCK_NB)
        Card.attach(self.path).close()

    def test_one_card_of_a_descriptor(self) -> None:
        file = os.open(self.path, os.O_RDWR)
        self.addCleanup(os.close, file)
        with Card.attach(file):
            with self.assertRaisesRegex(BlockingIOError, "another program uses the card"):
                Card.attach(file)
        Card.attach(file).close()

    def test_no_card_in_place_of_a_stream(self) -> None:
        before = self.path.read_bytes()
        program = (
            "import os, sys, soffitfennel\nos.closerange(0, 3)\n"
            "card = soffitfennel.Card.attach(sys.argv[1])\n"
            "for it in range(3):\n try: os.write(it, b'message')\n except OSError: pass\n"
        )
        environment = {**os.environ, "PYTHONPATH": str(Path(__file__).parent)}
        subprocess.run([sys.executable, "-c", program, str(self.path)], check=True, env=environment)
        self.assertEqual(self.path.read_bytes(), before)

    def test_no_copy(self) -> None:
        copies: list[Callable[[Any], Any]] = [copy.copy, copy.deepcopy, pickle.dumps]
        with Card.attach(self.path) as card:
            for it in (card, Reader()):
                for copied in copies:
                    with self.assertRaisesRegex(TypeError, "can't be copied"):
                        copied(it)

    def test_a_child_has_no_card(self) -> None:
        card = Card.attach(self.path)
        card.power_on()
        before = self.path.read_bytes()
        child = os.fork()
        if child == 0:
            try:
                card.transmit(VERIFY)
            except ValueError:
                card.close()
                os._exit(0)
            finally:
                os._exit(1)
        self.assertEqual(os.waitpid(child, 0)[1], 0)
        self.assertEqual(self.path.read_bytes(), before)
        with self.assertRaises(BlockingIOError):
            Card.attach(self.path)
        self.assertEqual(iccid(card), ICCID)
        card.close()

    def test_other_files(self) -> None:
        link, pipe = self.path.with_name("link"), self.path.with_name("pipe")
        link.symlink_to(self.path)
        os.mkfifo(pipe)
        for path, kind in ((link, OSError), (pipe, ValueError), (Path("/dev/null"), ValueError),
                           (self.path.with_name("none"), FileNotFoundError)):
            before = len(os.listdir("/proc/self/fd"))
            with self.assertRaises(kind):
                Card.attach(path)
            self.assertEqual(len(os.listdir("/proc/self/fd")), before)

    def test_no_card(self) -> None:
        for image, outcome in ((b"", Outcome.SIZE), (bytes(65_535), Outcome.SIZE), (bytes(65_536), Outcome.NO_CARD)):
            self.path.write_bytes(image)
            with self.assertRaises(CardError) as raised:
                Card.attach(self.path)
            self.assertIs(raised.exception.outcome, outcome)


class Readers(unittest.TestCase):
    """A reader's end over a card's blocks. The blocks are worked out by hand (docs/LINK.md)."""

    def fails(self, outcome: Outcome, call: Callable[..., Any], *given: Any) -> None:
        """The call has this outcome."""
        with self.assertRaises(CardError) as raised:
            call(*given)
        self.assertIs(raised.exception.outcome, outcome)

    def test_a_lost_block_is_asked_for(self) -> None:
        card, reader = powered(), Reader()
        self.assertEqual(reader.command(SELECT_ICCID), bytes.fromhex("00000700A4000C022FE260"))
        self.fails(Outcome.OUT_OF_TURN, reader.command, SELECT_ICCID)
        card.block(bytes.fromhex("00000700A4000C022FE260"))
        self.assertEqual(reader.receive(b""), (Outcome.SEND, bytes.fromhex("00820082")))
        self.assertEqual(reader.receive(card.block(bytes.fromhex("00820082"))), (Outcome.DONE, b"\x90\x00"))
        self.fails(Outcome.OUT_OF_TURN, reader.receive, b"")
        self.fails(Outcome.SIZE, reader.command, b"")
        self.assertEqual(reader.transmit(READ_ICCID, card.block), ICCID)

    def test_a_silent_card(self) -> None:
        with Reader() as reader:
            self.fails(Outcome.LOST, reader.transmit, SELECT_ICCID, lambda block: b"")
            self.fails(Outcome.LOST, reader.command, SELECT_ICCID)
            reader.reset()
            self.fails(Outcome.RESYNCHED, reader.transmit, SELECT_ICCID,
                       lambda block: bytes.fromhex("00E000E0") if block == bytes.fromhex("00C000C0") else b"")
            self.assertEqual(reader.command(SELECT_ICCID), bytes.fromhex("00000700A4000C022FE260"))
        with self.assertRaisesRegex(ValueError, "the reader is closed"):
            reader.command(SELECT_ICCID)

    def test_a_card_that_does_not_end(self) -> None:
        blocks = [bytes.fromhex("00200020"), bytes.fromhex("00600060")] * 20
        self.fails(Outcome.SEND, Reader().transmit, SELECT_ICCID, lambda block: blocks.pop(0), 40)
        self.fails(Outcome.BAD_ANSWER, Reader().transmit, SELECT_ICCID, lambda block: bytes.fromhex("0000019091"))


if __name__ == "__main__":
    unittest.main()
