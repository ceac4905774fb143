"""The faults that never fire, as soffitfennel_tools/pending.py counts them and as the plain core's line does."""

from __future__ import annotations

import random
import shutil
import subprocess
from collections.abc import Iterator
from pathlib import Path

from ...pending import Pending

PLAIN_CORE = Path(__file__).resolve().parents[3] / "plain_core"
# the plain core says at the end of a script how many blocks go before each pending fault, "." for none
END = "        if read == 0 {\n"
SAYS = """
    let pending = [desk.line.lose, desk.line.garble].map(|it| it.map_or(".".into(), |count| count.to_string()));
    eprintln!("{}", pending.join(" "));
"""
# a long file, so that commands and answers have many blocks
CREATE = "apdu 00E000001B62198202412183026F0A800200FF8A01058C087F00000000000000"
SETUP = ["on", CREATE, "apdu 00A4000C026F0A"]
COMMANDS = (
    "apdu 00A4000C022FE2",
    "apdu 00A4000C026F0A",
    "apdu 00B000000A",
    "apdu 00B00000FF",
    "apdu 00D60000FE" + "AB" * 254,
    "apdu 00D60000FA" + "CD" * 250,
    "apdu 00",
    "free",
    "off",
)
SCRIPTS, LINES, SEED = 200, 30, 7816
# the blocks of the longest exchange here
MOST_BLOCKS = 18


def build(room: Path) -> Path | None:
    """The plain core that says what is pending; None where rustc isn't installed."""
    if not shutil.which("rustc"):
        return None
    shutil.copytree(PLAIN_CORE, room / "plain")
    main = room / "plain" / "main.rs"
    text = main.read_text(encoding="utf-8")
    assert text.count(END) == 1, "the plain core reads its script in another way"
    main.write_text(text.replace(END, END + SAYS), encoding="utf-8")
    program = room / "pending"
    subprocess.run(["rustc", "-O", "--edition", "2021", "-o", program, main], check=True)
    return program


def script(chance: random.Random) -> list[str]:
    """Commands of one block and of many, with faults among them."""
    lines = list(SETUP)
    for _ in range(LINES):
        kind = chance.random()
        if kind < 0.25:
            lines.append(f"{chance.choice(('lose', 'garble'))} {chance.randrange(1, chance.choice((4, 12, 60)))}")
        elif kind < 0.32:
            lines.append(f"cut {chance.randrange(1, 9)} 0001")
        elif kind < 0.4:
            lines += ["on", "apdu 00A4000C026F0A"]
        elif kind < 0.42:
            lines.append("block 00C000C0")
        else:
            lines.append(chance.choice(COMMANDS))
    return lines


def scripts() -> Iterator[list[str]]:
    """A fault at each block of an exchange, with another one far behind it; then random ones."""
    for place in range(1, MOST_BLOCKS + 1):
        for one, other in (("lose", "garble"), ("garble", "lose")):
            for command in COMMANDS[3:6]:
                yield [*SETUP, f"{one} {place}", f"{other} 60", command]
    chance = random.Random(SEED)
    for _ in range(SCRIPTS):
        yield script(chance)


def counted(lines: list[str], answers: list[str]) -> str:
    """What is pending at the end, as the plain core says it."""
    pending, came = Pending(), iter(answers)
    for number, line in enumerate(lines, 1):
        pending.took(number, line)
        prints = line.partition(" ")[0] in ("on", "free", "apdu", "block")
        pending.printed(line, next(came) if prints else "")
    left = (pending.armed.get(it) for it in ("lose", "garble"))
    return " ".join(str(it.count - 1) if it else "." for it in left)


def differences(room: Path) -> list[str] | None:
    """The scripts whose pending faults are counted otherwise; None where rustc isn't installed."""
    program = build(room)
    if program is None:
        return None
    found = []
    for lines in scripts():
        text = "".join(f"{it}\n" for it in lines)
        ran = subprocess.run([program], input=text, capture_output=True, text=True, check=True)
        says = counted(lines, ran.stdout.splitlines())
        if says != ran.stderr.strip():
            found.append(f"{says}, not {ran.stderr.strip()}, after {lines}")
    return found
