"""The bench, killed by SIGKILL while it changes a card in a file; each image is judged by the reader."""
import random
import signal
import threading
from dataclasses import dataclass, field, replace
from typing import Any, Protocol

from ...card_image.image import read_image
from ...card_image.tree import Card, read

from .bench import ATR, Bench, ask

PIN, TRIES = bytes.fromhex("31323334FFFFFFFF"), 3
OK = "< 9000"
# the file that is updated, and those that are created and deleted
UPDATED, SIZE = 0x6F10, 200
MADE = range(0x6F20, 0x6F28)
COMMANDS = 300
# seconds until the kill, at most, behind the first command
LATEST, LATEST_SYNCED = 0.012, 0.3


class Compares(Protocol):
    """What counts comparisons."""

    def compare(self, what: str, wanted: Any, came: Any) -> None:
        """Counts one."""


@dataclass(frozen=True)
class Expected:
    """What is expected of the card: the bytes of the file that is updated, the files that were made, PIN 1's tries."""

    body: bytes = b"\xff" * SIZE
    made: dict[int, int] = field(default_factory=dict)
    tries: int = TRIES

    def with_file(self, identifier: int, size: int) -> "Expected":
        return replace(self, made={**self.made, identifier: size})

    def without_file(self, identifier: int) -> "Expected":
        return replace(self, made={it: size for it, size in self.made.items() if it != identifier})


@dataclass(frozen=True)
class Step:
    """A command, its answer, and the lasting cards that it passes, the last one first."""

    line: str
    answer: str
    stages: tuple[Expected, ...]


def created(identifier: int, size: int) -> str:
    """CREATE FILE of a transparent EF that everybody may read and update."""
    text = f"8202412183{2:02X}{identifier:04X}88008002{size:04X}8A01058C03030000"
    text = f"62{len(text) // 2:02X}{text}"
    return f"apdu 00E00000{len(text) // 2:02X}{text}"


def update(before: Expected, chance: random.Random) -> Step:
    """UPDATE BINARY of some bytes of the file, by its identifier in the same session."""
    offset = chance.randrange(SIZE)
    data = chance.randbytes(chance.randint(1, min(SIZE - offset, 120)))
    body = before.body[:offset] + data + before.body[offset + len(data):]
    after = replace(before, body=body)
    return Step(f"apdu 00D6{offset:04X}{len(data):02X}{data.hex().upper()}", OK, (after, before))


def verify(before: Expected, chance: random.Random) -> Step:
    """VERIFY: a cut one may cost a try, a right one gives all back."""
    charged = replace(before, tries=before.tries - 1)
    if before.tries > 2 and chance.random() < 0.4:
        return Step("apdu 0020000108" + "30" * 8, f"< 63C{charged.tries}", (charged, before))
    return Step(f"apdu 0020000108{PIN.hex().upper()}", OK, (replace(before, tries=TRIES), charged, before))


def make_or_delete(before: Expected, chance: random.Random) -> list[Step]:
    """CREATE of a file that isn't there, or DELETE of one that is; then the updated file is current again."""
    identifier = chance.choice(MADE)
    if identifier in before.made:
        after, line = before.without_file(identifier), f"apdu 00E4000002{identifier:04X}"
    else:
        size = chance.choice((1, 60, 61, 500, 3000))
        after, line = before.with_file(identifier, size), created(identifier, size)
    return [Step(line, OK, (after, before)), Step(f"apdu 00A4000C02{UPDATED:04X}", OK, (after,))]


def steps_from(begin: Expected, chance: random.Random) -> list[Step]:
    """Commands that change a card, one after another."""
    steps = [Step("on", ATR, (begin,)), Step(f"apdu 00A4000C02{UPDATED:04X}", OK, (begin,))]
    for _ in range(COMMANDS):
        before, kind = steps[-1].stages[0], chance.random()
        if kind < 0.5:
            steps.append(update(before, chance))
        elif kind < 0.7:
            steps.append(verify(before, chance))
        else:
            steps += make_or_delete(before, chance)
    return steps


def expected_of(card: Card) -> Expected:
    """What the reader shows of the card, in the same terms."""
    made = {it.entry.identifier: it.size for it in card.files if it.entry.identifier in MADE}
    filled = all(set(it.body) == {0xFF} for it in card.files if it.entry.identifier in MADE)
    body = next(it.body for it in card.files if it.entry.identifier == UPDATED)
    return Expected(body if filled else b"", made, card.pins[0].tries)


def killed(bench: Bench, steps: list[Step], chance: random.Random, is_synced: bool) -> list[str]:
    """Gives the bench all lines at once, kills it at some moment, and gives the answers that came."""
    process = bench.start(*["--sync"] * is_synced)
    assert process.stdin and process.stdout
    if ask(process, steps[0].line) != steps[0].answer:
        process.kill()
        return []
    script = "".join(f"{it.line}\n" for it in steps[1:])
    moment = chance.random() * (LATEST_SYNCED if is_synced else LATEST)
    timer = threading.Timer(moment, process.send_signal, [signal.SIGKILL])
    timer.start()
    try:
        printed, _ = process.communicate(script.encode())
    finally:
        timer.cancel()
    return [steps[0].answer, *printed.decode().splitlines()]


@dataclass
class Tally:
    """What the kills came to."""

    acknowledged: int = 0
    rolled_back: int = 0
    unacknowledged: int = 0
    in_command: int = 0


def judge(checks: Compares, bench: Bench, steps: list[Step], answers: list[str], tally: Tally) -> Expected | None:
    """The card in the image is one that the first line without an answer passes; nothing acknowledged is lost."""
    checks.compare("the answers before the kill", [it.answer for it in steps[:len(answers)]], answers)
    image, _ = read_image(str(bench.image))
    reading = read(image)
    checks.compare("the rules that the image breaks", [], reading.breaks)
    if reading.card is None or not answers:
        checks.compare("a card is found in the image of a bench that was killed", True, False)
        return None
    found = expected_of(reading.card)
    last = steps[len(answers) - 1].stages[0]
    under_way = steps[len(answers)].stages if len(answers) < len(steps) else (last,)
    checks.compare("the card is before or after the command under way", True, found in (last, *under_way))
    tally.acknowledged += len(answers)
    tally.in_command += len(answers) < len(steps)
    tally.rolled_back += image.gate > 0
    tally.unacknowledged += found != last
    return found


def prepare(bench: Bench) -> None:
    """A new card with the file that is updated."""
    bench.image.unlink(missing_ok=True)
    bench.run(f"on\n{created(UPDATED, SIZE)}\n")


def restore_tries(bench: Bench, begin: Expected) -> Expected:
    """A kill within VERIFY costs a try, as a cut does: before none is left a right VERIFY gives all back."""
    if begin.tries > 1:
        return begin
    bench.run(f"on\napdu 0020000108{PIN.hex().upper()}\n")
    return replace(begin, tries=TRIES)


def check(checks: Compares, bench: Bench, rounds: int, chance: random.Random) -> None:
    """Kills the bench again and again, each time over the card that the kill before left."""
    tally = Tally()
    prepare(bench)
    begin = Expected()
    for number in range(rounds):
        begin = restore_tries(bench, begin)
        steps = steps_from(begin, chance)
        answers = killed(bench, steps, chance, is_synced=number % 8 == 7)
        found = judge(checks, bench, steps, answers, tally)
        if found is None:
            return
        begin = found
    print(
        f"card: {rounds} kills, {tally.in_command} before the last line: {tally.acknowledged} lines acknowledged,"
        f" {tally.unacknowledged} changes kept without an answer, {tally.rolled_back} journals to roll back"
    )
